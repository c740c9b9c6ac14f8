//! Random vectors, as bits: for adds, for queries, and to be written into a store.
use crate::random::Random;

#[derive(Clone, Copy, PartialEq)]
pub enum Style {
    /// Components from −1 to 1.
    Any,
    /// Components −1, 0 and 1, so that distances tie.
    Ties,
    /// A few vectors that come again.
    Repeats,
    /// Close to a few vectors.
    Clusters,
    /// Zeros of both signs.
    Zero,
    /// A length of f32 1e-10, or close to it.
    Shortest,
    /// Squares that overflow, so that the length is infinite.
    Huge,
    /// Subnormal components.
    Subnormal,
    /// Any finite bits.
    Bits,
    /// Some components NaN or infinite.
    NotFinite,
}

const COMMON: [Style; 8] = [
    Style::Any,
    Style::Any,
    Style::Ties,
    Style::Ties,
    Style::Repeats,
    Style::Clusters,
    Style::Bits,
    Style::Huge,
];

const RARE: [Style; 7] = [
    Style::Zero,
    Style::Shortest,
    Style::Huge,
    Style::Subnormal,
    Style::Bits,
    Style::Ties,
    Style::NotFinite,
];

const NOT_FINITE: [u32; 6] = [
    0x7f80_0000,
    0xff80_0000,
    0x7fc0_0000,
    0xffc0_0000,
    0x7f80_0001,
    0xffff_ffff,
];

/// The f32 1e-10.
const SHORTEST: u32 = 0x2edb_e6ff;

/// The vectors of a history: mostly of one style.
pub struct Vectors {
    style: Style,
    /// What repeats and clusters are made of.
    pool: Vec<Vec<u32>>,
}

impl Vectors {
    pub fn new(random: &mut Random, dimension: usize) -> Self {
        let style = random.of(&COMMON);
        let sort = random.of(&[Style::Any, Style::Any, Style::Ties, Style::Bits]);
        let many = random.within(1, 7);
        let pool = (0..many).map(|_| plain(random, sort, dimension)).collect();
        Vectors { style, pool }
    }

    /// A vector to add or to ask for: sometimes of another style or, rarely, of another length.
    pub fn vector(&self, random: &mut Random, dimension: usize) -> Vec<u32> {
        let style = match random.below(40) {
            0..=3 => random.of(&RARE),
            _ => self.style,
        };
        let length = match random.below(80) {
            0 => random.of(&[0, dimension - 1, dimension + 1, 65]),
            _ => dimension,
        };
        self.of_style(random, style, length)
    }

    /// A finite vector of the history's style.
    pub fn finite(&self, random: &mut Random, dimension: usize) -> Vec<u32> {
        self.of_style(random, self.style, dimension)
    }

    /// Finite vectors that no call writes: not scaled, and so with distances that overflow or are no numbers.
    pub fn unscaled(&self, random: &mut Random, dimension: usize) -> Vec<u32> {
        let style = random.of(&[Style::Huge, Style::Huge, Style::Bits, Style::Ties]);
        self.of_style(random, style, dimension)
    }

    fn of_style(&self, random: &mut Random, style: Style, length: usize) -> Vec<u32> {
        let mut known = random.of(&self.pool);
        known.resize(length, 0x3f80_0000);
        match style {
            Style::Repeats => known,
            Style::Clusters => known
                .iter()
                .map(|&x| (f32::from_bits(x) + 0.05 * random.unit()).to_bits())
                .collect(),
            Style::NotFinite if length > 0 => {
                for _ in 0..random.within(1, 2) {
                    known[random.below(length)] = random.of(&NOT_FINITE);
                }
                known
            }
            Style::Shortest if length > 0 => {
                let near = random.of(&[0, 1, 2, u32::MAX, u32::MAX - 1]);
                let mut vector = vec![random.of(&[0, 0x8000_0000]); length];
                vector[random.below(length)] = SHORTEST.wrapping_add(near);
                vector
            }
            style => plain(random, style, length),
        }
    }
}

fn plain(random: &mut Random, style: Style, length: usize) -> Vec<u32> {
    (0..length).map(|_| component(random, style)).collect()
}

fn component(random: &mut Random, style: Style) -> u32 {
    let signed = |random: &mut Random, x: u32| x | random.of(&[0, 0x8000_0000]);
    match style {
        Style::Ties => random.of(&[-1.0f32, 0.0, 1.0]).to_bits(),
        Style::Zero => signed(random, 0),
        // 2^60 to the largest
        Style::Huge => {
            let power = random.of(&[
                0x5d80_0000,
                0x5f00_0000,
                0x7f00_0000,
                0x7f7f_ffff,
                0x7f7f_ffff,
            ]);
            signed(random, power)
        }
        Style::Subnormal => {
            let digits = random.word() % 0x0080_0000;
            signed(random, digits)
        }
        Style::Bits => match random.word() {
            x if f32::from_bits(x).is_finite() => x,
            x => x ^ 0x4000_0000,
        },
        _ => random.unit().to_bits(),
    }
}
