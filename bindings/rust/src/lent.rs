//! The index over memory that the caller passes in: no allocation, no std.
use crate::error::{accepted, Error};
use crate::params::{number, Params};
use crate::sys;

/// Where the header of the word store has its numbers.
pub(crate) mod header {
    /// 0 open, 1 built.
    pub const STATE: usize = 0;
    pub const DIMENSION: usize = 1;
    /// How many vectors were added.
    #[cfg(feature = "std")]
    pub const NODES: usize = 2;
    pub const CAPACITY: usize = 11;
}

/// How many entries of a search's outputs were written, and how many vectors it scored.
#[derive(Clone, Copy, Debug, PartialEq, Eq)]
pub struct Found {
    pub count: usize,
    pub scored: usize,
}

/// Whether a phone is one of those stored, with the score, 0 to 100, of the nearest one's distance.
#[derive(Clone, Copy, Debug, PartialEq, Eq)]
pub enum Recognition {
    /// It is the phone with this doc id.
    Known { doc: u32, score: u32 },
    /// None that was found is within the limit.
    New { score: u32 },
}

/// Two stores and scratch, borrowed. `Sizes::needed` says how long each has to be; longer ones will do. They may hold anything: a
/// call on stores that hold no index returns `Error::NotWellFormed` and changes nothing but scratch.
#[derive(Debug)]
pub struct Lent<'a> {
    words: &'a mut [u32],
    floats: &'a mut [f32],
    scratch_words: &'a mut [u32],
    scratch_floats: &'a mut [f32],
}

impl<'a> Lent<'a> {
    /// The index that the two stores hold, or will hold after `reset`.
    pub fn over(
        words: &'a mut [u32],
        floats: &'a mut [f32],
        scratch_words: &'a mut [u32],
        scratch_floats: &'a mut [f32],
    ) -> Lent<'a> {
        Lent {
            words,
            floats,
            scratch_words,
            scratch_floats,
        }
    }

    /// Makes the stores an open index with no vectors.
    pub fn reset(&mut self, dimension: usize, params: &Params, capacity: usize) -> Result<(), Error> {
        accepted(sys::pipnn_new(
            self.words,
            self.floats,
            number(dimension),
            number(params.max_leaf_size),
            number(params.min_leaf_size),
            params.leader_fraction,
            number(params.max_degree),
            number(params.num_hash_bits),
            u32::from(params.final_prune),
            params.alpha,
            number(params.ef_search),
            number(capacity),
        ))
    }

    /// Adds a vector, scaled, with its doc id.
    pub fn add(&mut self, doc: u32, vector: &[f32]) -> Result<(), Error> {
        accepted(sys::pipnn_add(self.words, self.floats, doc, vector))
    }

    /// Builds the graph. On a built index it is success, and nothing changes.
    pub fn build(&mut self) -> Result<(), Error> {
        accepted(sys::pipnn_build(
            self.words,
            self.floats,
            self.scratch_words,
            self.scratch_floats,
        ))
    }

    /// The nearest `k` of what a walk that keeps max(ef, k) nodes scores: doc ids and distances go to the front of the two outputs,
    /// which need min(k, len) entries each.
    pub fn search_with_ef(
        &mut self,
        query: &[f32],
        k: usize,
        ef: usize,
        docs: &mut [u32],
        distances: &mut [f32],
    ) -> Result<Found, Error> {
        found(sys::pipnn_search_with_ef(
            self.words,
            self.floats,
            query,
            number(k),
            number(ef),
            docs,
            distances,
            self.scratch_words,
            self.scratch_floats,
        ))
    }

    /// The same with the index's `ef_search`.
    pub fn search(&mut self, query: &[f32], k: usize, docs: &mut [u32], distances: &mut [f32]) -> Result<Found, Error> {
        found(sys::pipnn_search(
            self.words,
            self.floats,
            query,
            number(k),
            docs,
            distances,
            self.scratch_words,
            self.scratch_floats,
        ))
    }

    /// Known, if the nearest node that a search with k = 1 and this ef finds is at most `limit` away.
    pub fn recognise(&mut self, query: &[f32], ef: usize, limit: f32) -> Result<Recognition, Error> {
        recognition(sys::pipnn_recognise(
            self.words,
            self.floats,
            query,
            number(ef),
            limit,
            self.scratch_words,
            self.scratch_floats,
        ))
    }

    /// Whether the index is built. This call and the next two check both stores first, as every call on an index does: what holds no
    /// index is refused.
    pub fn is_built(&mut self) -> Result<bool, Error> {
        Ok(self.checked(header::STATE)? == 1)
    }

    /// How many vectors the index can hold.
    pub fn capacity(&mut self) -> Result<usize, Error> {
        self.checked(header::CAPACITY)
    }

    /// How many components a vector has.
    pub fn dimension(&mut self) -> Result<usize, Error> {
        self.checked(header::DIMENSION)
    }

    /// A word of the header, if the stores hold an index. An add with no components makes all checks of the stores and is then refused in
    /// any case, since a dimension is at least 1: by `AlreadyBuilt` on a built index, by `DimensionMismatch` on an open one.
    fn checked(&mut self, word: usize) -> Result<usize, Error> {
        match self.add(0, &[]) {
            Err(Error::AlreadyBuilt | Error::DimensionMismatch) => Ok(self.words[word] as usize),
            Err(refusal) => Err(refusal),
            Ok(()) => Err(Error::NotWellFormed),
        }
    }

    /// The word store.
    pub fn words(&self) -> &[u32] {
        self.words
    }

    /// The float store.
    pub fn floats(&self) -> &[f32] {
        self.floats
    }
}

pub(crate) fn found(given: sys::PipnnFound) -> Result<Found, Error> {
    accepted(given.number)?;
    Ok(Found {
        count: given.count as usize,
        scored: given.scored as usize,
    })
}

pub(crate) fn recognition(given: sys::PipnnRecognised) -> Result<Recognition, Error> {
    accepted(given.number)?;
    Ok(match given.known {
        0 => Recognition::New { score: given.score },
        _ => Recognition::Known {
            doc: given.doc,
            score: given.score,
        },
    })
}

/// How many different phones were sighted on a day. A sighting is an entry of both lists, its second since 1970-01-01 UTC and its doc
/// id; a second's day is the second over 86,400, rounded down.
pub fn household_count(day: u64, seconds: &[u64], docs: &[u32]) -> Result<u32, Error> {
    let given = sys::pipnn_household_count(day, seconds, docs);
    accepted(given.number)?;
    Ok(given.phones)
}
