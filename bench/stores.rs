//! The opening check, `new` and add: the published Rust against this library, same inputs, one run.
#[path = "../oracle/target/src/distance.rs"]
mod distance;
#[path = "../oracle/target/src/error.rs"]
mod error;
#[path = "../oracle/target/src/graph_snapshot.rs"]
mod graph_snapshot;
#[path = "../oracle/target/src/graph_utils.rs"]
mod graph_utils;
#[path = "../oracle/target/src/memory.rs"]
mod memory;
#[path = "../oracle/target/src/order.rs"]
mod order;
#[path = "../oracle/target/src/pipnn/mod.rs"]
mod pipnn;
#[path = "../oracle/target/src/prefetch.rs"]
mod prefetch;
#[path = "../oracle/target/src/simd.rs"]
mod simd;
#[path = "../oracle/sizes.rs"]
mod sizes;
mod timing;
mod trace;

pub use error::RetrieveError;
use pipnn::{PipnnIndex, PipnnParams};
use std::hint::black_box;
use timing::{medians, numbers};

extern "C" {
    fn measured_opening(w: *const u32, wl: usize, f: *const f32, fl: usize) -> u32;
    fn measured_new(w: *mut u32, wl: usize, f: *mut f32, fl: usize, dimension: u32, capacity: u32) -> u32;
    fn measured_add(w: *mut u32, wl: usize, f: *mut f32, fl: usize, doc: u32, v: *const f32, vl: usize) -> u32;
}

const NODES: usize = 1024;
const DEGREE: usize = 32;
const ROW: usize = sizes::row(DEGREE);
const ROWS_AT: usize = sizes::rows_at(NODES);
const BRIDGES_AT: usize = sizes::bridges_at(NODES, DEGREE);
/// Calls a round, where one is too short for the clock.
const CALLS: usize = 16;

/// The two stores, of just the sizes that 1,024 nodes ask for.
struct Stores {
    words: Vec<u32>,
    floats: Vec<f32>,
}

impl Stores {
    fn new(features: usize) -> Self {
        let mut stores = Stores {
            words: vec![7; sizes::words(NODES, DEGREE)],
            floats: vec![7.0; sizes::floats(NODES, features)],
        };
        assert_eq!(stores.call_new(features), 0);
        stores
    }

    /// With nodes added up to a number.
    fn with_nodes(features: usize, nodes: usize, vectors: &[f32]) -> Self {
        let mut stores = Stores::new(features);
        for (i, v) in vectors.chunks_exact(features).take(nodes).enumerate() {
            assert_eq!(stores.add(i as u32, v), 0);
        }
        stores
    }

    /// Built, as the check sees it: every row full, and as many bridges as there may be.
    fn close(&mut self) {
        self.words[0] = 1;
        self.words[10] = NODES as u32 - 1;
        for node in 0..NODES {
            let row = ROWS_AT + node * ROW;
            self.words[row] = DEGREE as u32;
            for i in 0..DEGREE {
                self.words[row + 1 + i] = ((node * 31 + i * 7) % NODES) as u32;
            }
            self.words[BRIDGES_AT + 2 * node] = node as u32;
            self.words[BRIDGES_AT + 2 * node + 1] = (node as u32 + 1) % NODES as u32;
        }
    }

    fn opening(&self) -> u32 {
        let (w, f) = (black_box(&self.words), black_box(&self.floats));
        unsafe { measured_opening(w.as_ptr(), w.len(), f.as_ptr(), f.len()) }
    }

    fn call_new(&mut self, features: usize) -> u32 {
        let (w, f) = (black_box(&mut self.words), black_box(&mut self.floats));
        unsafe { measured_new(w.as_mut_ptr(), w.len(), f.as_mut_ptr(), f.len(), features as u32, NODES as u32) }
    }

    fn add(&mut self, doc: u32, v: &[f32]) -> u32 {
        let (w, f) = (black_box(&mut self.words), black_box(&mut self.floats));
        unsafe { measured_add(w.as_mut_ptr(), w.len(), f.as_mut_ptr(), f.len(), doc, v.as_ptr(), v.len()) }
    }

    /// Adds of one vector, each of which finds as many nodes as the first.
    fn add_again(&mut self, v: &[f32]) {
        let nodes = self.words[2];
        for _ in 0..CALLS {
            assert_eq!(self.add(nodes, black_box(v)), 0);
            self.words[2] = nodes;
        }
    }
}

/// The rows of an open store are empty, and all their words are read as well.
fn opening(features: usize) {
    let vectors = numbers(8, NODES * features);
    let open = Stores::with_nodes(features, NODES, &vectors);
    let mut closed = Stores::with_nodes(features, NODES, &vectors);
    closed.close();
    let times = medians(&mut [
        &mut || assert_eq!(closed.opening(), 0),
        &mut || assert_eq!(open.opening(), 0),
    ]);
    let rows = 4 * (sizes::HEADER + NODES * ROW);
    let bridges = 4 * sizes::BRIDGE * (NODES - 1);
    let floats = 4 * sizes::floats(NODES, features);
    println!(
        "opening check, {NODES} nodes, {features} features: {:.1} us with full rows and all bridges, {:.0} bytes a ns; \
         {:.1} us with empty rows, {:.0} bytes a ns",
        times[0] / 1e3,
        (rows + bridges + floats) as f64 / times[0],
        times[1] / 1e3,
        (rows + floats) as f64 / times[1]
    );
}

fn new(features: usize) {
    let mut stores = Stores::new(features);
    let times = medians(&mut [
        &mut || {
            black_box(PipnnIndex::new(black_box(features), PipnnParams::default())).expect("a dimension above 0");
        },
        &mut || assert_eq!(stores.call_new(features), 0),
    ]);
    println!(
        "new, {features} features: Rust {:.1} us (its hyperplanes); ours, which zeroes a store of {NODES} nodes, {:.2} of that",
        times[0] / 1e3,
        times[1] / times[0]
    );
}

/// The Rust's index with all vectors. It grows now and then, so an add's time is an average over all.
fn rust_fills(features: usize, vectors: &[f32]) -> PipnnIndex {
    let mut index = PipnnIndex::new(features, PipnnParams::default()).expect("a dimension above 0");
    for (i, v) in vectors.chunks_exact(features).enumerate() {
        index.add_slice(i as u32, v).expect("as many components as the dimension");
    }
    index
}

fn add(features: usize) {
    let vectors = numbers(8, NODES * features);
    let v = &vectors[..features];
    let (mut none, mut half, mut all_but_one) = (
        Stores::with_nodes(features, 0, &vectors),
        Stores::with_nodes(features, NODES / 2, &vectors),
        Stores::with_nodes(features, NODES - 1, &vectors),
    );
    let full = Stores::with_nodes(features, NODES, &vectors);
    let rust = rust_fills(features, &vectors);
    assert!(full.floats.iter().zip(rust.vectors()).all(|(x, y)| x.to_bits() == y.to_bits()));
    let times = medians(&mut [
        &mut || {
            black_box(rust_fills(features, black_box(&vectors)));
        },
        &mut || {
            black_box(PipnnIndex::new(features, PipnnParams::default())).expect("a dimension above 0");
        },
        &mut || none.add_again(v),
        &mut || half.add_again(v),
        &mut || all_but_one.add_again(v),
    ]);
    let rust = (times[0] - times[1]) / NODES as f64;
    let ours: Vec<f64> = times[2..].iter().map(|t| t / CALLS as f64).collect();
    println!(
        "add, {features} features: Rust {rust:.0} ns, an average over {NODES} that includes its growth; ours {:.0} ns with 0 nodes, {:.1} of that; \
         {:.1} us with {} nodes, {:.0} of that; {:.1} us with {}, {:.0} of that",
        ours[0],
        ours[0] / rust,
        ours[1] / 1e3,
        NODES / 2,
        ours[1] / rust,
        ours[2] / 1e3,
        NODES - 1,
        ours[2] / rust
    );
}

fn main() {
    for features in [48, 64] {
        opening(features);
        new(features);
        add(features);
    }
}
