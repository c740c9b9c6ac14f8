//! Stand-in for the module that reports memory.
use smallvec::SmallVec;

pub struct MemoryReport {
    pub vectors_bytes: usize,
    pub graph_bytes: usize,
    pub quantized_bytes: usize,
    pub metadata_bytes: usize,
}

pub fn smallvec_u32_bytes(lists: &[SmallVec<[u32; 32]>]) -> usize {
    lists.iter().map(|list| list.len() * 4).sum()
}
