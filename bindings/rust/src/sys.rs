//! The archive's functions, and for each a safe function over slices. All unsafe code of the crate is here.
//!
//! Every function of the archive is total: for any content and any length of its slices it ends, stays within them, and returns 0
//! or the number of a refusal. What it asks of a caller is what a Rust slice is: a pointer that is not null and is aligned, to
//! that many initialised elements, and nothing written overlaps anything else. So each block below is safe for one reason, `SLICES`:
//! pointer and length come from one slice that is borrowed over the whole call, `&mut` where the function may write and `&`
//! where it only reads, and nothing keeps a pointer after the call. The functions are the archive's declared below, which
//! bindings/declarations.py compares with their source.
#![allow(clippy::too_many_arguments)]

/// What a search returns besides its outputs, as it crosses C.
#[repr(C)]
#[derive(Clone, Copy, Debug, PartialEq, Eq)]
pub struct PipnnFound {
    pub number: u32,
    pub count: u32,
    pub scored: u32,
}

/// What recognising returns, as it crosses C.
#[repr(C)]
#[derive(Clone, Copy, Debug, PartialEq, Eq)]
pub struct PipnnRecognised {
    pub number: u32,
    pub known: u32,
    pub doc: u32,
    pub score: u32,
}

/// What the household count returns, as it crosses C.
#[repr(C)]
#[derive(Clone, Copy, Debug, PartialEq, Eq)]
pub struct PipnnHousehold {
    pub number: u32,
    pub phones: u32,
}

mod raw {
    use super::{PipnnFound, PipnnHousehold, PipnnRecognised};

    extern "C" {
        pub fn pipnn_words_size(capacity: u32, max_degree: u32) -> usize;
        pub fn pipnn_floats_size(capacity: u32, dimension: u32) -> usize;
        pub fn pipnn_scratch_words(capacity: u32) -> usize;
        pub fn pipnn_scratch_floats(capacity: u32) -> usize;
        pub fn pipnn_new(
            words: *mut u32,
            words_length: usize,
            floats: *mut f32,
            floats_length: usize,
            dimension: u32,
            max_leaf_size: u32,
            min_leaf_size: u32,
            leader_fraction: f64,
            max_degree: u32,
            num_hash_bits: u32,
            final_prune: u32,
            alpha: f32,
            ef_search: u32,
            capacity: u32,
        ) -> u32;
        pub fn pipnn_add(
            words: *mut u32,
            words_length: usize,
            floats: *mut f32,
            floats_length: usize,
            doc: u32,
            vector: *const f32,
            vector_length: usize,
        ) -> u32;
        pub fn pipnn_build(
            words: *mut u32,
            words_length: usize,
            floats: *const f32,
            floats_length: usize,
            scratch_words: *mut u32,
            scratch_words_length: usize,
            scratch_floats: *mut f32,
            scratch_floats_length: usize,
        ) -> u32;
        pub fn pipnn_search_with_ef(
            words: *const u32,
            words_length: usize,
            floats: *const f32,
            floats_length: usize,
            query: *const f32,
            query_length: usize,
            k: u32,
            ef: u32,
            docs: *mut u32,
            docs_length: usize,
            distances: *mut f32,
            distances_length: usize,
            scratch_words: *mut u32,
            scratch_words_length: usize,
            scratch_floats: *mut f32,
            scratch_floats_length: usize,
        ) -> PipnnFound;
        pub fn pipnn_search(
            words: *const u32,
            words_length: usize,
            floats: *const f32,
            floats_length: usize,
            query: *const f32,
            query_length: usize,
            k: u32,
            docs: *mut u32,
            docs_length: usize,
            distances: *mut f32,
            distances_length: usize,
            scratch_words: *mut u32,
            scratch_words_length: usize,
            scratch_floats: *mut f32,
            scratch_floats_length: usize,
        ) -> PipnnFound;
        pub fn pipnn_recognise(
            words: *const u32,
            words_length: usize,
            floats: *const f32,
            floats_length: usize,
            query: *const f32,
            query_length: usize,
            ef: u32,
            limit: f32,
            scratch_words: *mut u32,
            scratch_words_length: usize,
            scratch_floats: *mut f32,
            scratch_floats_length: usize,
        ) -> PipnnRecognised;
        pub fn pipnn_household_count(
            day: u64,
            seconds: *const u64,
            seconds_length: usize,
            docs: *const u32,
            docs_length: usize,
        ) -> PipnnHousehold;
    }
}

pub fn pipnn_words_size(capacity: u32, max_degree: u32) -> usize {
    // SAFETY: numbers alone.
    unsafe { raw::pipnn_words_size(capacity, max_degree) }
}

pub fn pipnn_floats_size(capacity: u32, dimension: u32) -> usize {
    // SAFETY: numbers alone.
    unsafe { raw::pipnn_floats_size(capacity, dimension) }
}

pub fn pipnn_scratch_words(capacity: u32) -> usize {
    // SAFETY: a number alone.
    unsafe { raw::pipnn_scratch_words(capacity) }
}

pub fn pipnn_scratch_floats(capacity: u32) -> usize {
    // SAFETY: a number alone.
    unsafe { raw::pipnn_scratch_floats(capacity) }
}

pub fn pipnn_new(
    words: &mut [u32],
    floats: &mut [f32],
    dimension: u32,
    max_leaf_size: u32,
    min_leaf_size: u32,
    leader_fraction: f64,
    max_degree: u32,
    num_hash_bits: u32,
    final_prune: u32,
    alpha: f32,
    ef_search: u32,
    capacity: u32,
) -> u32 {
    // SAFETY: SLICES; both stores are written.
    unsafe {
        raw::pipnn_new(
            words.as_mut_ptr(),
            words.len(),
            floats.as_mut_ptr(),
            floats.len(),
            dimension,
            max_leaf_size,
            min_leaf_size,
            leader_fraction,
            max_degree,
            num_hash_bits,
            final_prune,
            alpha,
            ef_search,
            capacity,
        )
    }
}

pub fn pipnn_add(words: &mut [u32], floats: &mut [f32], doc: u32, vector: &[f32]) -> u32 {
    // SAFETY: SLICES; both stores are written, the vector is read.
    unsafe {
        raw::pipnn_add(
            words.as_mut_ptr(),
            words.len(),
            floats.as_mut_ptr(),
            floats.len(),
            doc,
            vector.as_ptr(),
            vector.len(),
        )
    }
}

pub fn pipnn_build(words: &mut [u32], floats: &[f32], scratch_words: &mut [u32], scratch_floats: &mut [f32]) -> u32 {
    // SAFETY: SLICES; the words and scratch are written, the floats are read.
    unsafe {
        raw::pipnn_build(
            words.as_mut_ptr(),
            words.len(),
            floats.as_ptr(),
            floats.len(),
            scratch_words.as_mut_ptr(),
            scratch_words.len(),
            scratch_floats.as_mut_ptr(),
            scratch_floats.len(),
        )
    }
}

pub fn pipnn_search_with_ef(
    words: &[u32],
    floats: &[f32],
    query: &[f32],
    k: u32,
    ef: u32,
    docs: &mut [u32],
    distances: &mut [f32],
    scratch_words: &mut [u32],
    scratch_floats: &mut [f32],
) -> PipnnFound {
    // SAFETY: SLICES; outputs and scratch are written, stores and query are read.
    unsafe {
        raw::pipnn_search_with_ef(
            words.as_ptr(),
            words.len(),
            floats.as_ptr(),
            floats.len(),
            query.as_ptr(),
            query.len(),
            k,
            ef,
            docs.as_mut_ptr(),
            docs.len(),
            distances.as_mut_ptr(),
            distances.len(),
            scratch_words.as_mut_ptr(),
            scratch_words.len(),
            scratch_floats.as_mut_ptr(),
            scratch_floats.len(),
        )
    }
}

pub fn pipnn_search(
    words: &[u32],
    floats: &[f32],
    query: &[f32],
    k: u32,
    docs: &mut [u32],
    distances: &mut [f32],
    scratch_words: &mut [u32],
    scratch_floats: &mut [f32],
) -> PipnnFound {
    // SAFETY: SLICES; outputs and scratch are written, stores and query are read.
    unsafe {
        raw::pipnn_search(
            words.as_ptr(),
            words.len(),
            floats.as_ptr(),
            floats.len(),
            query.as_ptr(),
            query.len(),
            k,
            docs.as_mut_ptr(),
            docs.len(),
            distances.as_mut_ptr(),
            distances.len(),
            scratch_words.as_mut_ptr(),
            scratch_words.len(),
            scratch_floats.as_mut_ptr(),
            scratch_floats.len(),
        )
    }
}

pub fn pipnn_recognise(
    words: &[u32],
    floats: &[f32],
    query: &[f32],
    ef: u32,
    limit: f32,
    scratch_words: &mut [u32],
    scratch_floats: &mut [f32],
) -> PipnnRecognised {
    // SAFETY: SLICES; scratch is written, stores and query are read.
    unsafe {
        raw::pipnn_recognise(
            words.as_ptr(),
            words.len(),
            floats.as_ptr(),
            floats.len(),
            query.as_ptr(),
            query.len(),
            ef,
            limit,
            scratch_words.as_mut_ptr(),
            scratch_words.len(),
            scratch_floats.as_mut_ptr(),
            scratch_floats.len(),
        )
    }
}

pub fn pipnn_household_count(day: u64, seconds: &[u64], docs: &[u32]) -> PipnnHousehold {
    // SAFETY: SLICES; both lists are read.
    unsafe { raw::pipnn_household_count(day, seconds.as_ptr(), seconds.len(), docs.as_ptr(), docs.len()) }
}
