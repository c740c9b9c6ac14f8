//! The parameters of an index, and the memory that it needs.
use crate::sys;

/// The largest value of each number. The smallest is 1 for a dimension, a capacity and `max_leaf_size`, and 0 for the others.
pub const MOST_DIMENSION: usize = 64;
pub const MOST_CAPACITY: usize = 1024;
pub const MOST_LEAF_SIZE: usize = 2048;
pub const MOST_MIN_LEAF_SIZE: usize = 1024;
pub const MOST_DEGREE: usize = 32;
pub const MOST_HASH_BITS: usize = 16;
pub const MOST_EF: usize = 1024;
/// Of `k` in a search.
pub const MOST_NODES: usize = 1024;
/// Of `ef` in a search.
pub const MOST_BEAM: usize = 1024;
pub const MOST_SIGHTINGS: usize = 512;

/// The parameters of the published `PipnnParams`, with its names, types and defaults.
#[derive(Clone, Debug, PartialEq)]
pub struct Params {
    /// Maximum leaf size: 1 to 2048. Default: 2048, with which every index here is one leaf.
    pub max_leaf_size: usize,
    /// Buckets smaller than this are gathered: 0 to 1024. Default: 64.
    pub min_leaf_size: usize,
    /// Share of a segment's nodes that become leaders: 0 to 1. Default: 0.02.
    pub leader_fraction: f64,
    /// Maximum out-degree before repair: 0 to 32. Default: 32.
    pub max_degree: usize,
    /// Hyperplanes of a hash: 0 to 16. Default: 12.
    pub num_hash_bits: usize,
    /// Changes no graph and no answer within these limits. Default: true.
    pub final_prune: bool,
    /// Finite; changes no graph and no answer within these limits. Default: 1.2.
    pub alpha: f32,
    /// The `ef` of a search that names none: 0 to 1024. Default: 100.
    pub ef_search: usize,
}

impl Default for Params {
    fn default() -> Self {
        Params {
            max_leaf_size: 2048,
            min_leaf_size: 64,
            leader_fraction: 0.02,
            max_degree: 32,
            num_hash_bits: 12,
            final_prune: true,
            alpha: 1.2,
            ef_search: 100,
        }
    }
}

/// How many elements the stores and scratch have to have. All are 0 where a number is beyond its limits, which the call that
/// makes the index then refuses.
#[derive(Clone, Copy, Debug, PartialEq, Eq)]
pub struct Sizes {
    pub words: usize,
    pub floats: usize,
    pub scratch_words: usize,
    pub scratch_floats: usize,
}

impl Sizes {
    pub fn needed(dimension: usize, params: &Params, capacity: usize) -> Sizes {
        Sizes {
            words: sys::pipnn_words_size(number(capacity), number(params.max_degree)),
            floats: sys::pipnn_floats_size(number(capacity), number(dimension)),
            scratch_words: sys::pipnn_scratch_words(number(capacity)),
            scratch_floats: sys::pipnn_scratch_floats(number(capacity)),
        }
    }
}

/// A number as the library takes it. Every limit is far below u32's, so one that does not fit becomes one that is refused.
pub(crate) fn number(x: usize) -> u32 {
    u32::try_from(x).unwrap_or(u32::MAX)
}
