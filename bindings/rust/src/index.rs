//! The index that owns its memory.
use crate::error::Error;
use crate::lent::{found, header, recognition, Found, Lent, Recognition};
use crate::params::{number, Params, Sizes};
use crate::sys;
use std::fmt;

/// An index with its stores and scratch, to replace the published `PipnnIndex`: the same calls, with a capacity in `new`, where all
/// memory is allocated.
#[derive(Clone)]
pub struct Index {
    words: Vec<u32>,
    floats: Vec<f32>,
    scratch: Scratch,
}

/// Scratch and outputs of searches. An index has its own; a thread that searches a shared index brings one.
#[derive(Clone, Debug)]
pub struct Scratch {
    words: Vec<u32>,
    floats: Vec<f32>,
    docs: Vec<u32>,
    distances: Vec<f32>,
}

impl Scratch {
    /// Enough for an index of that capacity.
    pub fn new(capacity: usize) -> Scratch {
        let sizes = Sizes::needed(1, &Params::default(), capacity);
        let entries = if sizes.scratch_words == 0 { 0 } else { capacity };
        Scratch {
            words: vec![0; sizes.scratch_words],
            floats: vec![0.0; sizes.scratch_floats],
            docs: vec![0; entries],
            distances: vec![0.0; entries],
        }
    }
}

impl Index {
    /// An open index with no vectors, for at most `capacity` of them.
    pub fn new(dimension: usize, params: Params, capacity: usize) -> Result<Index, Error> {
        let sizes = Sizes::needed(dimension, &params, capacity);
        let mut index = Index {
            words: vec![0; sizes.words],
            floats: vec![0.0; sizes.floats],
            scratch: Scratch::new(capacity),
        };
        index.lent().reset(dimension, &params, capacity)?;
        Ok(index)
    }

    /// An index from stores that `words` and `floats` of another returned, however long ago. Stores that hold no index are refused.
    pub fn from_stores(words: Vec<u32>, floats: Vec<f32>) -> Result<Index, Error> {
        let mut index = Index {
            words,
            floats,
            scratch: Scratch::new(0),
        };
        let capacity = index.lent().capacity()?;
        index.scratch = Scratch::new(capacity);
        Ok(index)
    }

    /// Adds a vector with its doc id: a `Vec<f32>`, a slice or an array.
    pub fn add(&mut self, doc: u32, vector: impl AsRef<[f32]>) -> Result<(), Error> {
        self.add_slice(doc, vector.as_ref())
    }

    /// Adds a vector from a slice.
    pub fn add_slice(&mut self, doc: u32, vector: &[f32]) -> Result<(), Error> {
        self.lent().add(doc, vector)
    }

    /// Builds the graph. On a built index it is success, and nothing changes.
    pub fn build(&mut self) -> Result<(), Error> {
        self.lent().build()
    }

    /// The nearest `k`, as doc ids and distances, nearest first, with the index's `ef_search`.
    pub fn search(&mut self, query: &[f32], k: usize) -> Result<Vec<(u32, f32)>, Error> {
        let s = &mut self.scratch;
        let given = sys::pipnn_search(
            &self.words,
            &self.floats,
            query,
            number(k),
            &mut s.docs,
            &mut s.distances,
            &mut s.words,
            &mut s.floats,
        );
        Ok(s.pairs(found(given)?))
    }

    /// The nearest `k` of what a walk that keeps max(ef, k) nodes scores. Where that is at least `len()`, nothing is missed.
    pub fn search_with_ef(&mut self, query: &[f32], k: usize, ef: usize) -> Result<Vec<(u32, f32)>, Error> {
        let found = search_in(&self.words, &self.floats, query, k, ef, &mut self.scratch)?;
        Ok(self.scratch.pairs(found))
    }

    /// Whether a phone that was heard is one of those stored: known, if the nearest one that a search with `k` = 1 and this `ef` finds is
    /// at most `limit` away.
    pub fn recognise(&mut self, query: &[f32], ef: usize, limit: f32) -> Result<Recognition, Error> {
        self.lent().recognise(query, ef, limit)
    }

    /// `search_with_ef` of an index that is shared: each thread brings its own scratch.
    pub fn search_shared(&self, query: &[f32], k: usize, ef: usize, scratch: &mut Scratch) -> Result<Vec<(u32, f32)>, Error> {
        let found = search_in(&self.words, &self.floats, query, k, ef, scratch)?;
        Ok(scratch.pairs(found))
    }

    /// `recognise` of an index that is shared.
    pub fn recognise_shared(&self, query: &[f32], ef: usize, limit: f32, scratch: &mut Scratch) -> Result<Recognition, Error> {
        let s = scratch;
        recognition(sys::pipnn_recognise(
            &self.words,
            &self.floats,
            query,
            number(ef),
            limit,
            &mut s.words,
            &mut s.floats,
        ))
    }

    /// How many vectors were added.
    pub fn len(&self) -> usize {
        self.words[header::NODES] as usize
    }

    /// Whether none was.
    pub fn is_empty(&self) -> bool {
        self.len() == 0
    }

    /// How many vectors it can hold.
    pub fn capacity(&self) -> usize {
        self.words[header::CAPACITY] as usize
    }

    /// How many components a vector has.
    pub fn dimension(&self) -> usize {
        self.words[header::DIMENSION] as usize
    }

    /// Whether it is built: it can be searched, and takes no more vectors.
    pub fn is_built(&self) -> bool {
        self.words[header::STATE] == 1
    }

    /// The word store, to be kept for `from_stores`.
    pub fn words(&self) -> &[u32] {
        &self.words
    }

    /// The float store, likewise.
    pub fn floats(&self) -> &[f32] {
        &self.floats
    }

    /// The same memory as a `Lent`.
    pub fn lent(&mut self) -> Lent<'_> {
        Lent::over(
            &mut self.words,
            &mut self.floats,
            &mut self.scratch.words,
            &mut self.scratch.floats,
        )
    }
}

impl fmt::Debug for Index {
    fn fmt(&self, f: &mut fmt::Formatter<'_>) -> fmt::Result {
        f.debug_struct("Index")
            .field("len", &self.len())
            .field("capacity", &self.capacity())
            .field("dimension", &self.dimension())
            .field("is_built", &self.is_built())
            .finish_non_exhaustive()
    }
}

impl Scratch {
    fn pairs(&self, found: Found) -> Vec<(u32, f32)> {
        self.docs
            .iter()
            .copied()
            .zip(self.distances.iter().copied())
            .take(found.count)
            .collect()
    }
}

fn search_in(words: &[u32], floats: &[f32], query: &[f32], k: usize, ef: usize, s: &mut Scratch) -> Result<Found, Error> {
    found(sys::pipnn_search_with_ef(
        words,
        floats,
        query,
        number(k),
        number(ef),
        &mut s.docs,
        &mut s.distances,
        &mut s.words,
        &mut s.floats,
    ))
}
