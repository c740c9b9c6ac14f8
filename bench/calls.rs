//! Add, build, search and recognise: the published Rust against this library, same inputs, one run. Answers are compared bit for bit
//! before anything is measured. Prints a line a measurement, which bench/report.py makes a table and a picture of.
#[path = "../oracle/target/src/distance.rs"]
mod distance;
#[path = "../oracle/target/src/error.rs"]
mod error;
#[path = "../oracle/target/src/graph_snapshot.rs"]
mod graph_snapshot;
#[path = "../oracle/target/src/graph_utils.rs"]
mod graph_utils;
#[cfg(counted)]
mod heap;
#[path = "../oracle/target/src/memory.rs"]
mod memory;
#[path = "../oracle/target/src/order.rs"]
mod order;
mod ours;
#[path = "../oracle/target/src/pipnn/mod.rs"]
mod pipnn;
#[path = "../oracle/target/src/prefetch.rs"]
mod prefetch;
#[path = "../oracle/target/src/simd.rs"]
mod simd;
mod timing;
mod trace;

pub use error::RetrieveError;
use ours::Ours;
use pipnn::{PipnnIndex, PipnnParams};
use std::hint::black_box;
use timing::{clusters, compare, numbers, Compared};

const FEATURES: usize = 48;
/// Noisy copies of stored vectors, half of them, and random directions.
const QUERIES: usize = 32;
const DEFAULT_LEAF: usize = 2048;
/// A distance up to which a phone is known.
const LIMIT: f32 = 0.25;

fn rust_with(leaf: usize, vectors: &[f32]) -> PipnnIndex {
    let params = PipnnParams { max_leaf_size: leaf, ..PipnnParams::default() };
    let mut index = PipnnIndex::new(FEATURES, params).expect("a dimension above 0");
    for (i, v) in vectors.chunks_exact(FEATURES).enumerate() {
        index.add_slice(i as u32, v).expect("as many components as the dimension");
    }
    index
}

fn rust_built(leaf: usize, vectors: &[f32]) -> PipnnIndex {
    let mut index = rust_with(leaf, vectors);
    index.build().expect("some nodes");
    index
}

fn tell(what: &str, n: usize, leaf: usize, scored: usize, times: Compared) {
    println!("{what}\t{n}\t{leaf}\t{scored}\t{:.0}\t{:.4}\t{:.4}", times.rust, times.ours, times.again);
}

/// All nodes into an empty index.
fn add(n: usize, vectors: &[f32]) {
    let mut ours = Ours::open(n, FEATURES, DEFAULT_LEAF);
    let empty = ours.words.clone();
    let rust = || {
        black_box(rust_with(DEFAULT_LEAF, vectors));
    };
    let times = compare(101, rust, || {
        ours.words.copy_from_slice(&empty);
        ours.add_all(vectors);
    });
    tell("add", n, DEFAULT_LEAF, 0, times);
}

fn build(n: usize, leaf: usize, vectors: &[f32]) {
    let mut ours = Ours::with(n, leaf, FEATURES, vectors);
    let open = ours.words.clone();
    let adds = compare(21, || drop(black_box(rust_with(leaf, vectors))), || ());
    let times = compare(
        if n < 512 { 51 } else { 21 },
        || drop(black_box(rust_built(leaf, vectors))),
        || {
            ours.words.copy_from_slice(&open);
            ours.build();
        },
    );
    tell("build", n, leaf, 0, times.without(adds.rust));
}

fn queries_for(n: usize, vectors: &[f32]) -> Vec<Vec<f32>> {
    let noise = numbers(77, QUERIES * FEATURES);
    let query = |i: usize| {
        let random = &noise[i * FEATURES..(i + 1) * FEATURES];
        if i % 2 == 1 {
            return random.to_vec();
        }
        let stored = (i * 131) % n;
        vectors[stored * FEATURES..(stored + 1) * FEATURES].iter().zip(random).map(|(x, y)| x + 0.05 * y).collect()
    };
    (0..QUERIES).map(query).collect()
}

/// How many nodes were scored over all queries, if every answer is the Rust's.
fn compare_answers(rust: &PipnnIndex, ours: &mut Ours, queries: &[Vec<f32>], n: usize, k: usize, ef: usize) -> usize {
    let (mut docs, mut distances) = (vec![0u32; k], vec![0f32; k]);
    let mut scored = 0;
    for q in queries {
        scored += ours.search(q, k, ef, &mut docs, &mut distances).scored as usize;
        let theirs = rust.search_with_ef(q, k, ef).expect("a built index");
        let same = theirs.iter().zip(docs.iter().zip(&distances)).all(|(r, (d, x))| r.0 == *d && r.1.to_bits() == x.to_bits());
        assert!(same && theirs.len() == k.min(n), "an answer differs");
    }
    scored
}

fn search(n: usize, leaf: usize, vectors: &[f32]) {
    let rust = rust_built(leaf, vectors);
    let mut ours = Ours::with(n, leaf, FEATURES, vectors);
    ours.build();
    let queries = queries_for(n, vectors);
    for (k, ef) in [(1, 10), (1, 50), (1, 100), (10, 10), (10, 50), (10, 100)] {
        let scored = compare_answers(&rust, &mut ours, &queries, n, k, ef);
        let (mut docs, mut distances) = (vec![0u32; k], vec![0f32; k]);
        let times = compare(
            101,
            || queries.iter().for_each(|q| drop(black_box(rust.search_with_ef(black_box(q), k, ef)))),
            || queries.iter().for_each(|q| drop(black_box(ours.search(black_box(q), k, ef, &mut docs, &mut distances)))),
        );
        tell(&format!("search k {k} ef {ef}"), n, leaf, scored / QUERIES, times.each(QUERIES));
    }
    let times = compare(
        101,
        || queries.iter().for_each(|q| drop(black_box(rust.search_with_ef(black_box(q), 1, 50).map(|r| r[0].1 <= LIMIT)))),
        || queries.iter().for_each(|q| drop(black_box(ours.recognise(black_box(q), 50, LIMIT)))),
    );
    tell("recognise ef 50", n, leaf, 0, times.each(QUERIES));
}

/// How often a stored vector, asked for as it is, is not in the answer of a search for one: of 1,024 nodes in 16 clusters, and of
/// as many random directions.
fn misses(n: usize) {
    for (name, vectors) in [("clusters", clusters(5, n, FEATURES)), ("random", numbers(5, n * FEATURES))] {
        let mut ours = Ours::with(n, DEFAULT_LEAF, FEATURES, &vectors);
        ours.build();
        for ef in [10, 50, 100, 200, n] {
            let (mut docs, mut distances) = ([0u32], [0f32]);
            let missed = (0..n).filter(|i| {
                let own = &vectors[i * FEATURES..(i + 1) * FEATURES];
                ours.search(own, 1, ef, &mut docs, &mut distances);
                docs[0] as usize != *i
            });
            println!("missed {name}\t{n}\t{ef}\t{}", missed.count());
        }
    }
}

/// Bytes: the Rust's index once built, and the most that was in use at once while it was filled, built and searched; ours by
/// the sizes that it asks for.
#[cfg(counted)]
fn room(n: usize, vectors: &[f32]) {
    let before = heap::in_use();
    heap::forget_most();
    let index = rust_built(DEFAULT_LEAF, vectors);
    black_box(index.search_with_ef(&vectors[..FEATURES], 10, 100)).expect("a built index");
    let (standing, most) = (heap::in_use() - before, heap::most() - before);
    let (stores, scratch) = Ours::open(n, FEATURES, DEFAULT_LEAF).bytes();
    println!("room\t{n}\t{standing}\t{most}\t{stores}\t{scratch}");
}

#[cfg(counted)]
fn main() {
    for n in [64, 256, 512, 1024] {
        room(n, &numbers(9, n * FEATURES));
    }
}

#[cfg(not(counted))]
fn main() {
    for n in [64, 256, 512, 1024] {
        let vectors = numbers(9, n * FEATURES);
        add(n, &vectors);
        for leaf in [DEFAULT_LEAF, 64] {
            build(n, leaf, &vectors);
            search(n, leaf, &vectors);
        }
    }
    misses(1024);
}
