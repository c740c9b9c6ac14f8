//! Lent memory for tests.
#![allow(dead_code)]
use pipnn_gateway::{Lent, Params, Sizes};

/// The parameters of the scope's worked example.
pub fn small() -> Params {
    Params {
        max_leaf_size: 256,
        min_leaf_size: 0,
        leader_fraction: 0.5,
        max_degree: 1,
        num_hash_bits: 0,
        final_prune: true,
        alpha: f32::from_bits(0x3f99_999a),
        ef_search: 3,
    }
}

/// Words of a store's header.
pub const HEADER: usize = 16;

/// The sizes that docs/SCOPE.md names, for numbers within their limits: the library is not asked.
pub fn sizes(dimension: usize, params: &Params, capacity: usize) -> Sizes {
    Sizes {
        words: HEADER + capacity * (4 + params.max_degree),
        floats: capacity * dimension,
        scratch_words: 64 * capacity,
        scratch_floats: 16 * capacity + 256,
    }
}

/// Two stores and scratch of just the sizes, full of something else.
#[derive(Clone)]
pub struct Memory {
    pub words: Vec<u32>,
    pub floats: Vec<f32>,
    pub scratch_words: Vec<u32>,
    pub scratch_floats: Vec<f32>,
}

impl Memory {
    pub fn new(dimension: usize, params: &Params, capacity: usize) -> Memory {
        let sizes = Sizes::needed(dimension, params, capacity);
        Memory {
            words: vec![7; sizes.words],
            floats: vec![-1.0; sizes.floats],
            scratch_words: vec![7; sizes.scratch_words],
            scratch_floats: vec![f32::NAN; sizes.scratch_floats],
        }
    }

    pub fn lent(&mut self) -> Lent<'_> {
        Lent::over(
            &mut self.words,
            &mut self.floats,
            &mut self.scratch_words,
            &mut self.scratch_floats,
        )
    }

    /// The stores' bits: a NaN equals itself.
    pub fn stores(&self) -> (Vec<u32>, Vec<u32>) {
        (self.words.clone(), bits(&self.floats))
    }
}

pub fn bits(floats: &[f32]) -> Vec<u32> {
    floats.iter().map(|x| x.to_bits()).collect()
}

/// The worked example's three phones, in a store for eight.
pub fn three_phones() -> Memory {
    let mut memory = Memory::new(2, &small(), 8);
    let mut lent = memory.lent();
    lent.reset(2, &small(), 8).unwrap();
    lent.add(10, &[1.0, 0.0]).unwrap();
    lent.add(20, &[0.0, 1.0]).unwrap();
    lent.add(30, &[-1.0, 0.0]).unwrap();
    memory
}
