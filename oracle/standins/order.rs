//! The order of distances (scope, part 1): `total_cmp`, a NaN taken as positive. All NaNs are one value.
use std::cmp::Ordering;

pub fn compare(a: f32, b: f32) -> Ordering {
    f32::from_bits(bits(a)).total_cmp(&f32::from_bits(bits(b)))
}

/// The bits of a float, those of one NaN for every NaN. Worked out on whole numbers: a choice between two NaNs as floats is one that
/// the compiler leaves out.
pub fn bits(x: f32) -> u32 {
    match x.to_bits() {
        nan if nan & 0x7fff_ffff > 0x7f80_0000 => 0x7fc0_0000,
        number => number,
    }
}

/// Stand-in for the `FloatOrd` of vicinity, which is not among the published files.
#[derive(Clone, Copy)]
pub struct FloatOrd(pub f32);

impl Ord for FloatOrd {
    fn cmp(&self, other: &Self) -> Ordering {
        compare(self.0, other.0)
    }
}

impl PartialOrd for FloatOrd {
    fn partial_cmp(&self, other: &Self) -> Option<Ordering> {
        Some(self.cmp(other))
    }
}

impl PartialEq for FloatOrd {
    fn eq(&self, other: &Self) -> bool {
        self.cmp(other) == Ordering::Equal
    }
}

impl Eq for FloatOrd {}
