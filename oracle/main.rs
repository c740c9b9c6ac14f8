//! The oracle: the published Rust with the edits of edits.py, behind the probe's lines (scope, Checked values) and behind the recorded answers' lines.
//!
//! usage: oracle probe    reads the probe's lines and prints the probe's lines
//!        oracle all      the same lines, and prints whatever the published code hands out
//!        oracle answer   reads questions (recorded/README.md) and prints them with their answers
//!
//! compare/ links it as a library, for its stores, its sizes, its order and what the scope adds to the Rust.
mod answer;
mod distance;
mod error;
mod graph_snapshot;
mod graph_utils;
mod memory;
pub mod order;
mod pipnn;
mod prefetch;
mod probe;
pub mod recognising;
mod simd;
pub mod sizes;
pub mod stores;
mod trace;

pub use error::RetrieveError;
use std::io::{Read, Write};

fn main() {
    let mut input = Vec::new();
    std::io::stdin().read_to_end(&mut input).expect("standard input can be read");
    let output = match std::env::args().nth(1).as_deref() {
        Some("probe") => probe::run(&input, false),
        Some("all") => probe::run(&input, true),
        Some("answer") => answer::run(std::str::from_utf8(&input).expect("questions are text")),
        _ => panic!("usage: oracle probe|all|answer"),
    };
    std::io::stdout().write_all(output.as_bytes()).expect("standard output can be written");
}
