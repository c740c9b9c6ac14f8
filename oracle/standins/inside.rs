//! A child of the published module, so that the driver can fill an index and call its private parts.
use super::{PipnnIndex, PipnnParams};
use smallvec::SmallVec;

impl PipnnIndex {
    /// An open index with these vectors as they are.
    pub fn holding(
        dimension: usize,
        params: PipnnParams,
        vectors: Vec<f32>,
        doc_ids: Vec<u32>,
    ) -> Self {
        let mut index = Self::new(dimension, params).expect("a dimension above 0");
        index.num_vectors = vectors.len() / dimension;
        index.vectors = vectors;
        index.doc_ids = doc_ids;
        index
    }

    /// Makes it a built index with this graph.
    pub fn with_graph(mut self, lists: Vec<Vec<u32>>, entry: u32) -> Self {
        self.neighbors = lists.into_iter().map(SmallVec::from_vec).collect();
        self.medoid = entry;
        self.built = true;
        self
    }

    pub fn vectors(&self) -> &[f32] {
        &self.vectors
    }

    pub fn lists(&self) -> Vec<Vec<u32>> {
        self.neighbors.iter().map(|list| list.to_vec()).collect()
    }

    pub fn entry(&self) -> u32 {
        self.medoid
    }

    pub fn hyperplanes(&self) -> &[f32] {
        &self.hyperplanes
    }

    /// The leaves of a segment at a level.
    pub fn carve(&self, ids: &[u32], level: usize) -> Vec<Vec<u32>> {
        self.partition(ids, level)
    }

    pub fn find_entry(&self) -> u32 {
        self.compute_medoid()
    }
}
