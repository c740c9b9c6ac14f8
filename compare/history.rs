//! A history: steps on one word store and one float store. Some set up or damage the stores, the others call the library. Floats are
//! bits.
use oracle::stores::Asked;

#[derive(Clone, Copy, PartialEq)]
pub enum Store {
    Words,
    Floats,
}

#[derive(Clone)]
pub enum Step {
    /// Makes the stores anew, of n words and m floats, as the recorded line `fill` does from a seed; all of it is passed to the calls.
    Fill(usize, usize, u64),
    /// The calls that follow are passed only the first words and floats.
    Lend(usize, usize),
    /// Writes from an index on, as far as the store goes.
    Put(Store, usize, Vec<u32>),
    /// Writes one word, so that `Mend` can set it back.
    Damage(Store, usize, u32),
    /// Sets back all that was damaged since the last `Mend`.
    Mend,
    Call(Call),
}

#[derive(Clone)]
pub enum Call {
    New(Asked),
    Add {
        doc: u32,
        vector: Vec<u32>,
    },
    Build(Scratch),
    Find(Search),
    Recognise(Recognition),
    Household(Sightings),
    /// The four sizes that a caller asks for, of a capacity, a degree and a dimension.
    Sizes([u32; 3]),
}

#[derive(Clone)]
pub struct Search {
    pub k: u32,
    /// None is `search`, which takes the store's.
    pub ef: Option<u32>,
    /// Lengths of the two outputs, doc ids and distances.
    pub outputs: (usize, usize),
    pub query: Vec<u32>,
    pub scratch: Scratch,
}

#[derive(Clone)]
pub struct Recognition {
    pub ef: u32,
    pub limit: u32,
    pub query: Vec<u32>,
    pub scratch: Scratch,
}

#[derive(Clone)]
pub struct Sightings {
    pub day: u64,
    pub seconds: Vec<u64>,
    pub docs: Vec<u32>,
}

/// Scratch of these lengths; its content is scattered from the seed.
#[derive(Clone)]
pub struct Scratch {
    pub lengths: (usize, usize),
    pub seed: u64,
}

/// The names of the calls, in the table's order.
pub const KINDS: [&str; 8] = [
    "new",
    "add",
    "build",
    "search_with_ef",
    "search",
    "recognise",
    "household",
    "sizes",
];

impl Call {
    /// The index of its name in `KINDS`.
    pub fn kind(&self) -> usize {
        match self {
            Call::New(_) => 0,
            Call::Add { .. } => 1,
            Call::Build(_) => 2,
            Call::Find(search) if search.ef.is_some() => 3,
            Call::Find(_) => 4,
            Call::Recognise(_) => 5,
            Call::Household(_) => 6,
            Call::Sizes(_) => 7,
        }
    }
}

/// Words of a store or of scratch: those of the recorded line `fill`.
pub fn scattered(length: usize, seed: u64) -> Vec<u32> {
    (0..length as u64)
        .map(|i| seed.wrapping_add(i.wrapping_mul(2654435761)) as u32)
        .collect()
}

/// Floats of a store by the same line: finite, and not negative.
pub fn scattered_floats(length: usize, seed: u64) -> Vec<u32> {
    let keep_finite = |x: u32| x % (1 << 30);
    scattered(length, seed)
        .into_iter()
        .map(keep_finite)
        .collect()
}

/// Both stores between two steps.
#[derive(Default)]
pub struct State {
    pub words: Vec<u32>,
    pub floats: Vec<u32>,
    pub lent: (usize, usize),
    damaged: Vec<(Store, usize, u32)>,
}

impl State {
    pub fn held(&self, store: Store) -> &[u32] {
        match store {
            Store::Words => &self.words,
            Store::Floats => &self.floats,
        }
    }

    fn store(&mut self, store: Store) -> &mut [u32] {
        match store {
            Store::Words => &mut self.words,
            Store::Floats => &mut self.floats,
        }
    }

    pub fn lent_words(&self) -> &[u32] {
        &self.words[..self.lent.0]
    }

    pub fn lent_floats(&self) -> &[u32] {
        &self.floats[..self.lent.1]
    }

    /// A header word of what is passed in; 0 if it is not.
    pub fn header(&self, place: usize) -> u32 {
        self.lent_words().get(place).copied().unwrap_or(0)
    }

    /// Takes a step that is not a call, and returns what it wrote.
    pub fn prepare(&mut self, step: &Step) -> Vec<(Store, usize, u32)> {
        let mut written = Vec::new();
        match step {
            Step::Fill(words, floats, seed) => {
                *self = State {
                    words: scattered(*words, *seed),
                    floats: scattered_floats(*floats, *seed),
                    lent: (*words, *floats),
                    damaged: Vec::new(),
                }
            }
            Step::Lend(words, floats) => {
                self.lent = (
                    *words.min(&self.words.len()),
                    *floats.min(&self.floats.len()),
                )
            }
            Step::Put(store, at, values) => {
                let places = values.iter().enumerate();
                written.extend(places.map(|(i, &x)| (*store, at + i, x)));
            }
            Step::Damage(store, at, value) => {
                if let Some(&old) = self.held(*store).get(*at) {
                    self.damaged.push((*store, *at, old));
                }
                written.push((*store, *at, *value));
            }
            Step::Mend => {
                written = std::mem::take(&mut self.damaged);
                written.reverse();
            }
            Step::Call(_) => {}
        }
        written.retain(|&(store, at, _)| at < self.held(store).len());
        for &(store, at, value) in &written {
            self.store(store)[at] = value;
        }
        written
    }
}
