//! The published Rust as a crate, out of the oracle's copy of it (oracle/build), so that the Rust example can be run on it too.
#[path = "../oracle/target/src/distance.rs"]
mod distance;
#[path = "../oracle/target/src/error.rs"]
mod error;
#[path = "../oracle/target/src/graph_snapshot.rs"]
mod graph_snapshot;
#[path = "../oracle/target/src/graph_utils.rs"]
mod graph_utils;
#[path = "../oracle/target/src/memory.rs"]
mod memory;
#[path = "../oracle/target/src/order.rs"]
mod order;
#[path = "../oracle/target/src/pipnn/mod.rs"]
pub mod pipnn;
#[path = "../oracle/target/src/prefetch.rs"]
mod prefetch;
#[path = "../oracle/target/src/simd.rs"]
mod simd;
#[path = "../bench/trace.rs"]
mod trace;

pub use error::RetrieveError;
