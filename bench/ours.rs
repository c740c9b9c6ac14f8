//! This library behind its C functions (include/pipnn.h), with stores and scratch of just the sizes that it asks for.
use std::hint::black_box;

#[repr(C)]
pub struct Found {
    pub number: u32,
    pub count: u32,
    pub scored: u32,
}

#[repr(C)]
pub struct Recognised {
    pub number: u32,
    pub known: u32,
    pub doc: u32,
    pub score: u32,
}

extern "C" {
    fn pipnn_words_size(capacity: u32, degree: u32) -> usize;
    fn pipnn_floats_size(capacity: u32, dimension: u32) -> usize;
    fn pipnn_scratch_words(capacity: u32) -> usize;
    fn pipnn_scratch_floats(capacity: u32) -> usize;
    #[allow(clippy::too_many_arguments)]
    fn pipnn_new(
        w: *mut u32, wl: usize, f: *mut f32, fl: usize, dimension: u32, leaf: u32, min: u32, fraction: f64, degree: u32, bits: u32,
        prune: u32, alpha: f32, ef: u32, capacity: u32,
    ) -> u32;
    fn pipnn_add(w: *mut u32, wl: usize, f: *mut f32, fl: usize, doc: u32, v: *const f32, vl: usize) -> u32;
    fn pipnn_build(w: *mut u32, wl: usize, f: *const f32, fl: usize, sw: *mut u32, swl: usize, sf: *mut f32, sfl: usize) -> u32;
    #[allow(clippy::too_many_arguments)]
    fn pipnn_search_with_ef(
        w: *const u32, wl: usize, f: *const f32, fl: usize, q: *const f32, ql: usize, k: u32, ef: u32, d: *mut u32, dl: usize,
        x: *mut f32, xl: usize, sw: *mut u32, swl: usize, sf: *mut f32, sfl: usize,
    ) -> Found;
    #[allow(clippy::too_many_arguments)]
    fn pipnn_recognise(
        w: *const u32, wl: usize, f: *const f32, fl: usize, q: *const f32, ql: usize, ef: u32, limit: f32, sw: *mut u32, swl: usize,
        sf: *mut f32, sfl: usize,
    ) -> Recognised;
}

pub const DEGREE: u32 = 32;

pub struct Ours {
    pub words: Vec<u32>,
    floats: Vec<f32>,
    scratch_words: Vec<u32>,
    scratch_floats: Vec<f32>,
    dimension: usize,
}

impl Ours {
    /// An open store with room for n nodes, and the Rust's default parameters but for the leaf's size.
    pub fn open(n: usize, dimension: usize, leaf: usize) -> Self {
        let (c, d) = (n as u32, dimension as u32);
        let mut ours = unsafe {
            Ours {
                words: vec![7; pipnn_words_size(c, DEGREE)],
                floats: vec![7.0; pipnn_floats_size(c, d)],
                scratch_words: vec![7; pipnn_scratch_words(c)],
                scratch_floats: vec![7.0; pipnn_scratch_floats(c)],
                dimension,
            }
        };
        let (w, f) = (&mut ours.words, &mut ours.floats);
        let number = unsafe {
            pipnn_new(w.as_mut_ptr(), w.len(), f.as_mut_ptr(), f.len(), d, leaf as u32, 64, 0.02, DEGREE, 12, 1, 1.2, 100, c)
        };
        assert_eq!(number, 0);
        ours
    }

    pub fn with(n: usize, leaf: usize, dimension: usize, vectors: &[f32]) -> Self {
        let mut ours = Ours::open(n, dimension, leaf);
        ours.add_all(vectors);
        ours
    }

    pub fn add_all(&mut self, vectors: &[f32]) {
        let (w, f) = (&mut self.words, &mut self.floats);
        for (i, v) in vectors.chunks_exact(self.dimension).enumerate() {
            let number = unsafe { pipnn_add(w.as_mut_ptr(), w.len(), f.as_mut_ptr(), f.len(), i as u32, v.as_ptr(), v.len()) };
            assert_eq!(number, 0);
        }
    }

    pub fn build(&mut self) {
        let (w, f) = (black_box(&mut self.words), &self.floats);
        let (sw, sf) = (&mut self.scratch_words, &mut self.scratch_floats);
        let number =
            unsafe { pipnn_build(w.as_mut_ptr(), w.len(), f.as_ptr(), f.len(), sw.as_mut_ptr(), sw.len(), sf.as_mut_ptr(), sf.len()) };
        assert_eq!(number, 0);
    }

    pub fn search(&mut self, q: &[f32], k: usize, ef: usize, docs: &mut [u32], distances: &mut [f32]) -> Found {
        let (w, f) = (&self.words, &self.floats);
        let (sw, sf) = (&mut self.scratch_words, &mut self.scratch_floats);
        let found = unsafe {
            pipnn_search_with_ef(
                w.as_ptr(), w.len(), f.as_ptr(), f.len(), q.as_ptr(), q.len(), k as u32, ef as u32, docs.as_mut_ptr(), docs.len(),
                distances.as_mut_ptr(), distances.len(), sw.as_mut_ptr(), sw.len(), sf.as_mut_ptr(), sf.len(),
            )
        };
        assert_eq!(found.number, 0);
        found
    }

    pub fn recognise(&mut self, q: &[f32], ef: usize, limit: f32) -> Recognised {
        let (w, f) = (&self.words, &self.floats);
        let (sw, sf) = (&mut self.scratch_words, &mut self.scratch_floats);
        let answer = unsafe {
            pipnn_recognise(
                w.as_ptr(), w.len(), f.as_ptr(), f.len(), q.as_ptr(), q.len(), ef as u32, limit, sw.as_mut_ptr(), sw.len(),
                sf.as_mut_ptr(), sf.len(),
            )
        };
        assert_eq!(answer.number, 0);
        answer
    }

    /// Bytes of the two stores, and of scratch.
    pub fn bytes(&self) -> (usize, usize) {
        (4 * (self.words.len() + self.floats.len()), 4 * (self.scratch_words.len() + self.scratch_floats.len()))
    }
}
