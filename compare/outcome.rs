//! What a call leaves, and what is compared of it.
use oracle::order::bits;

/// Everything that a call leaves but its scratch. Floats are bits.
#[derive(Clone, Default)]
pub struct Outcome {
    pub number: u32,
    /// What else it returns: count and scored; known, doc id and score; phones; sizes.
    pub given: Vec<u64>,
    /// The parts of both stores that are passed in.
    pub words: Vec<u32>,
    pub floats: Vec<u32>,
    /// The two outputs of a search, all of them.
    pub docs: Vec<u32>,
    pub distances: Vec<u32>,
}

impl Outcome {
    /// How many answers of a search are in the outputs.
    pub fn count(&self) -> usize {
        self.given.first().map_or(0, |&count| count as usize)
    }

    fn slices(&self) -> [(&'static str, &[u32]); 4] {
        [
            ("word", &self.words),
            ("float", &self.floats),
            ("doc id", &self.docs),
            ("distance", &self.distances),
        ]
    }

    /// In words, where the other one differs first.
    pub fn difference(&self, other: &Outcome) -> Option<String> {
        if self.number != other.number {
            return Some(format!("number: {} and {}", self.number, other.number));
        }
        if self.given != other.given {
            return Some(format!("given: {:?} and {:?}", self.given, other.given));
        }
        let pairs = self.slices().into_iter().zip(other.slices());
        pairs.into_iter().find_map(|((name, a), (_, b))| {
            let answers = if name == "distance" { self.count() } else { 0 };
            first_unlike(a, b, answers).map(|place| match (a.get(place), b.get(place)) {
                (Some(x), Some(y)) => format!("{name} {place:x}: {x:x} and {y:x}"),
                _ => format!("{name}s: {} and {}", a.len(), b.len()),
            })
        })
    }

    /// In words, what a refused call changed of what was passed in.
    pub fn changed(&self, before: &Outcome) -> Option<String> {
        let before = Outcome {
            number: self.number,
            given: vec![0; self.given.len()],
            ..before.clone()
        };
        self.difference(&before)
            .map(|what| format!("a refusal changed something, after and before: {what}"))
    }

    pub fn told(&self) -> String {
        let mut told = format!("number {} given {:?}", self.number, self.given);
        if !self.docs.is_empty() || !self.distances.is_empty() {
            let distances: Vec<String> =
                self.distances.iter().map(|x| format!("{x:08x}")).collect();
            told += &format!(" docs {:?} distances {distances:?}", self.docs);
        }
        told
    }
}

/// The first index that differs. In the first entries, which hold answers, all NaNs are one value (DECISIONS 11, "There is one NaN").
fn first_unlike(a: &[u32], b: &[u32], answers: usize) -> Option<usize> {
    if a == b {
        return None;
    }
    let alike = |x: u32, y: u32| x == y || bits(f32::from_bits(x)) == bits(f32::from_bits(y));
    let unlike = a
        .iter()
        .zip(b)
        .enumerate()
        .position(|(i, (&x, &y))| !(x == y || i < answers && alike(x, y)));
    unlike.or((a.len() != b.len()).then_some(a.len().min(b.len())))
}
