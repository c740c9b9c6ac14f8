//! The static library, called through C as its users do.
use crate::block::Block;
use crate::history::{scattered, Call, Recognition, Scratch, Search, Sightings, State};
use crate::outcome::Outcome;
use oracle::stores::Asked;

#[repr(C)]
struct Found {
    number: u32,
    count: u32,
    scored: u32,
}

#[repr(C)]
struct Recognised {
    number: u32,
    known: u32,
    doc: u32,
    score: u32,
}

#[repr(C)]
struct Household {
    number: u32,
    phones: u32,
}

#[rustfmt::skip]
extern "C" {
    fn pipnn_new(
        w: *mut u32, wl: usize, f: *mut u32, fl: usize, dimension: u32, max_leaf_size: u32, min_leaf_size: u32, leader_fraction: f64,
        max_degree: u32, num_hash_bits: u32, final_prune: u32, alpha: f32, ef_search: u32, capacity: u32,
    ) -> u32;
    fn pipnn_add(w: *mut u32, wl: usize, f: *mut u32, fl: usize, doc: u32, v: *const u32, vl: usize) -> u32;
    fn pipnn_build(w: *mut u32, wl: usize, f: *const u32, fl: usize, sw: *mut u32, swl: usize, sf: *mut u32, sfl: usize) -> u32;
    fn pipnn_search_with_ef(
        w: *const u32, wl: usize, f: *const u32, fl: usize, q: *const u32, ql: usize, k: u32, ef: u32, d: *mut u32, dl: usize,
        x: *mut u32, xl: usize, sw: *mut u32, swl: usize, sf: *mut u32, sfl: usize,
    ) -> Found;
    fn pipnn_search(
        w: *const u32, wl: usize, f: *const u32, fl: usize, q: *const u32, ql: usize, k: u32, d: *mut u32, dl: usize,
        x: *mut u32, xl: usize, sw: *mut u32, swl: usize, sf: *mut u32, sfl: usize,
    ) -> Found;
    fn pipnn_recognise(
        w: *const u32, wl: usize, f: *const u32, fl: usize, q: *const u32, ql: usize, ef: u32, limit: f32,
        sw: *mut u32, swl: usize, sf: *mut u32, sfl: usize,
    ) -> Recognised;
    fn pipnn_household_count(day: u64, s: *const u64, sl: usize, d: *const u32, dl: usize) -> Household;
    fn pipnn_words_size(capacity: u32, max_degree: u32) -> usize;
    fn pipnn_floats_size(capacity: u32, dimension: u32) -> usize;
    fn pipnn_scratch_words(capacity: u32) -> usize;
    fn pipnn_scratch_floats(capacity: u32) -> usize;
}

/// How slices are passed in.
#[derive(Clone, Copy, PartialEq)]
pub enum Lending {
    /// With guard words around each; the part of a store that is not passed in is behind the part that is.
    Guarded,
    /// Each in an allocation of just its length, scratch undefined: for valgrind, which then sees every access outside a slice and every
    /// decision that depends on old scratch.
    Bare,
}

/// The slices that a call is passed.
struct Lent {
    lending: Lending,
    words: Block<u32>,
    floats: Block<u32>,
    docs: Block<u32>,
    distances: Block<u32>,
    scratch: (Block<u32>, Block<u32>),
}

/// What the outputs hold before a search.
pub fn outputs_before(call: &Call) -> (Vec<u32>, Vec<u32>) {
    match call {
        Call::Find(Search {
            outputs: (docs, distances),
            ..
        }) => (scattered(*docs, 77), scattered(*distances, 78)),
        _ => Default::default(),
    }
}

impl Lent {
    fn to(call: &Call, state: &State, lending: Lending) -> Self {
        let guarded = lending == Lending::Guarded;
        let (docs, distances) = outputs_before(call);
        let scratch = match call {
            Call::Build(scratch)
            | Call::Find(Search { scratch, .. })
            | Call::Recognise(Recognition { scratch, .. }) => scratch.clone(),
            _ => Scratch {
                lengths: (0, 0),
                seed: 0,
            },
        };
        let scratch_of = |length: usize, seed: u64| match lending {
            Lending::Guarded => Block::of(&scattered(length, seed), length, guarded),
            Lending::Bare => Block::undefined(length),
        };
        Lent {
            lending,
            words: Block::of(&state.words, state.lent.0, guarded),
            floats: Block::of(&state.floats, state.lent.1, guarded),
            scratch: (
                scratch_of(scratch.lengths.0, scratch.seed),
                scratch_of(scratch.lengths.1, !scratch.seed),
            ),
            docs: Block::of(&docs, docs.len(), guarded),
            distances: Block::of(&distances, distances.len(), guarded),
        }
    }

    /// A slice that is only read.
    fn input<T: Copy + PartialEq + From<u32>>(&self, content: &[T]) -> Block<T> {
        Block::of(content, content.len(), self.lending == Lending::Guarded)
    }

    fn blocks(&self) -> [(&'static str, &Block<u32>); 6] {
        [
            ("the word store", &self.words),
            ("the float store", &self.floats),
            ("the doc ids found", &self.docs),
            ("the distances found", &self.distances),
            ("scratch words", &self.scratch.0),
            ("scratch floats", &self.scratch.1),
        ]
    }

    /// The outcome, or in words what was written outside of what was passed in.
    fn outcome(&self, number: u32, given: Vec<u64>) -> Result<Outcome, String> {
        if let Some((name, _)) = self.blocks().iter().find(|(_, block)| !block.sound()) {
            return Err(format!("something was written outside of {name}"));
        }
        Ok(Outcome {
            number,
            given,
            words: self.words.lent().to_vec(),
            floats: self.floats.lent().to_vec(),
            docs: self.docs.lent().to_vec(),
            distances: self.distances.lent().to_vec(),
        })
    }
}

/// What the library does with a call; an error where it writes what it must not.
pub fn outcome(call: &Call, state: &State, lending: Lending) -> Result<Outcome, String> {
    let lent = &mut Lent::to(call, state, lending);
    match call {
        Call::New(asked) => new(lent, asked),
        Call::Add { doc, vector } => add(lent, *doc, vector),
        Call::Build(_) => build(lent),
        Call::Find(search) => find(lent, search),
        Call::Recognise(asked) => recognise(lent, asked),
        Call::Household(sightings) => household(lent, sightings),
        Call::Sizes(asked) => lent.outcome(0, sizes(*asked)),
    }
}

fn unwritten<T: Copy + PartialEq>(input: &Block<T>, content: &[T]) -> Result<(), String> {
    if input.sound() && input.lent() == content {
        return Ok(());
    }
    Err("a slice that is only to be read was written".into())
}

fn new(lent: &mut Lent, a: &Asked) -> Result<Outcome, String> {
    let ((w, wl), (f, fl)) = (lent.words.slice(), lent.floats.slice());
    let (fraction, alpha) = (f64::from_bits(a.leader_fraction), f32::from_bits(a.alpha));
    let number = unsafe {
        pipnn_new(
            w,
            wl,
            f,
            fl,
            a.dimension,
            a.max_leaf_size,
            a.min_leaf_size,
            fraction,
            a.max_degree,
            a.num_hash_bits,
            a.final_prune,
            alpha,
            a.ef_search,
            a.capacity,
        )
    };
    lent.outcome(number, Vec::new())
}

fn add(lent: &mut Lent, doc: u32, vector: &[u32]) -> Result<Outcome, String> {
    let mut input = lent.input(vector);
    let ((w, wl), (f, fl)) = (lent.words.slice(), lent.floats.slice());
    let (v, vl) = input.slice();
    let number = unsafe { pipnn_add(w, wl, f, fl, doc, v, vl) };
    unwritten(&input, vector)?;
    lent.outcome(number, Vec::new())
}

fn build(lent: &mut Lent) -> Result<Outcome, String> {
    let ((w, wl), (f, fl)) = (lent.words.slice(), lent.floats.slice());
    let ((sw, swl), (sf, sfl)) = (lent.scratch.0.slice(), lent.scratch.1.slice());
    let number = unsafe { pipnn_build(w, wl, f, fl, sw, swl, sf, sfl) };
    lent.outcome(number, Vec::new())
}

fn find(lent: &mut Lent, search: &Search) -> Result<Outcome, String> {
    let mut input = lent.input(&search.query);
    let ((w, wl), (f, fl)) = (lent.words.slice(), lent.floats.slice());
    let ((d, dl), (x, xl)) = (lent.docs.slice(), lent.distances.slice());
    let ((sw, swl), (sf, sfl)) = (lent.scratch.0.slice(), lent.scratch.1.slice());
    let ((q, ql), k) = (input.slice(), search.k);
    let found = unsafe {
        match search.ef {
            Some(ef) => {
                pipnn_search_with_ef(w, wl, f, fl, q, ql, k, ef, d, dl, x, xl, sw, swl, sf, sfl)
            }
            None => pipnn_search(w, wl, f, fl, q, ql, k, d, dl, x, xl, sw, swl, sf, sfl),
        }
    };
    unwritten(&input, &search.query)?;
    lent.outcome(found.number, vec![found.count.into(), found.scored.into()])
}

fn recognise(lent: &mut Lent, asked: &Recognition) -> Result<Outcome, String> {
    let mut input = lent.input(&asked.query);
    let ((w, wl), (f, fl)) = (lent.words.slice(), lent.floats.slice());
    let ((sw, swl), (sf, sfl)) = (lent.scratch.0.slice(), lent.scratch.1.slice());
    let (limit, ef) = (f32::from_bits(asked.limit), asked.ef);
    let (q, ql) = input.slice();
    let known = unsafe { pipnn_recognise(w, wl, f, fl, q, ql, ef, limit, sw, swl, sf, sfl) };
    unwritten(&input, &asked.query)?;
    let given = [known.known, known.doc, known.score];
    lent.outcome(known.number, given.map(u64::from).to_vec())
}

fn household(lent: &Lent, sightings: &Sightings) -> Result<Outcome, String> {
    let Sightings { day, seconds, docs } = sightings;
    let (mut times, mut ids) = (lent.input(seconds), lent.input(docs));
    let ((s, sl), (d, dl)) = (times.slice(), ids.slice());
    let counted = unsafe { pipnn_household_count(*day, s, sl, d, dl) };
    unwritten(&times, seconds)?;
    unwritten(&ids, docs)?;
    lent.outcome(counted.number, vec![counted.phones.into()])
}

fn sizes([capacity, max_degree, dimension]: [u32; 3]) -> Vec<u64> {
    let sizes = unsafe {
        [
            pipnn_words_size(capacity, max_degree),
            pipnn_floats_size(capacity, dimension),
            pipnn_scratch_words(capacity),
            pipnn_scratch_floats(capacity),
        ]
    };
    sizes.map(|size| size as u64).to_vec()
}
