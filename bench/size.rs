//! A program that fills, builds and searches an index, to see how much code that takes: by the published Rust (`--cfg rust`), by this
//! library (`--cfg ours`), or not at all.
#[cfg(rust)]
#[path = "../oracle/target/src/distance.rs"]
mod distance;
#[cfg(rust)]
#[path = "../oracle/target/src/error.rs"]
mod error;
#[cfg(rust)]
#[path = "../oracle/target/src/graph_snapshot.rs"]
mod graph_snapshot;
#[cfg(rust)]
#[path = "../oracle/target/src/graph_utils.rs"]
mod graph_utils;
#[cfg(rust)]
#[path = "../oracle/target/src/memory.rs"]
mod memory;
#[cfg(rust)]
#[path = "../oracle/target/src/order.rs"]
mod order;
#[cfg(rust)]
#[path = "../oracle/target/src/pipnn/mod.rs"]
mod pipnn;
#[cfg(rust)]
#[path = "../oracle/target/src/prefetch.rs"]
mod prefetch;
#[cfg(rust)]
#[path = "../oracle/target/src/simd.rs"]
mod simd;
#[cfg(ours)]
mod ours;
#[cfg(rust)]
mod trace;

#[cfg(rust)]
pub use error::RetrieveError;
use std::hint::black_box;

#[cfg(rust)]
fn answer(vector: &[f32]) -> usize {
    let mut index = pipnn::PipnnIndex::new(vector.len(), pipnn::PipnnParams::default()).unwrap();
    index.add_slice(1, vector).unwrap();
    index.build().unwrap();
    index.search_with_ef(vector, 1, 10).unwrap().len()
}

#[cfg(ours)]
fn answer(vector: &[f32]) -> usize {
    let mut index = ours::Ours::with(8, 2048, vector.len(), vector);
    index.build();
    index.search(vector, 1, 10, &mut [0], &mut [0.0]).count as usize
}

#[cfg(not(any(rust, ours)))]
fn answer(vector: &[f32]) -> usize {
    vector.len()
}

fn main() {
    println!("{}", answer(black_box(&[1.0; 48])));
}
