//! Distances and roots: the published Rust against this library, same inputs, one run.
#[path = "../oracle/target/src/order.rs"]
mod order;
#[path = "../oracle/target/src/simd.rs"]
mod simd;
#[path = "../oracle/target/src/distance.rs"]
mod distance;
mod timing;

use std::hint::black_box;
use timing::{medians, numbers};

extern "C" {
    fn measured_one(q: *const f32, qn: usize, rows: *const f32, rn: usize, out: *mut f32, on: usize) -> usize;
    fn measured_eight(q: *const f32, qn: usize, rows: *const f32, rn: usize, out: *mut f32, on: usize) -> usize;
    fn measured_block(q: *const f32, qn: usize, blocks: *const f32, bn: usize, out: *mut f32, on: usize) -> usize;
    fn measured_roots(xs: *const f32, xn: usize, out: *mut f32, on: usize);
}

type Scan = unsafe extern "C" fn(*const f32, usize, *const f32, usize, *mut f32, usize) -> usize;

const ROWS: usize = 1024;

fn rust_rows(q: &[f32], rows: &[f32], out: &mut [f32]) {
    for (i, row) in rows.chunks_exact(q.len()).enumerate() {
        out[i] = distance::cosine_distance_normalized(q, row);
    }
}

fn our_rows(scan: Scan, q: &[f32], rows: &[f32], out: &mut [f32]) {
    let n = unsafe { scan(q.as_ptr(), q.len(), rows.as_ptr(), rows.len(), out.as_mut_ptr(), out.len()) };
    assert_eq!(n, out.len());
}

fn same_bits(a: &[f32], b: &[f32]) {
    for (x, y) in a.iter().zip(b) {
        assert_eq!(x.to_bits(), y.to_bits());
    }
}

/// Transposes rows into blocks of eight, in which a component's eight numbers are adjacent.
fn turn(rows: &[f32], features: usize, blocks: &mut [f32]) {
    for (eight, block) in rows.chunks_exact(8 * features).zip(blocks.chunks_exact_mut(8 * features)) {
        for (i, together) in block.chunks_exact_mut(8).enumerate() {
            for (j, x) in together.iter_mut().enumerate() {
                *x = eight[j * features + i];
            }
        }
    }
}

fn distances(features: usize) {
    let q = numbers(7, features);
    let rows = numbers(8, ROWS * features);
    let mut turned = vec![0.0; rows.len()];
    turn(&rows, features, &mut turned);
    let mut again = vec![0.0; rows.len()];
    let (mut rust, mut one) = (vec![0.0; ROWS], vec![0.0; ROWS]);
    let (mut eight, mut block) = (vec![0.0; ROWS], vec![0.0; ROWS]);
    let times = medians(&mut [
        &mut || rust_rows(black_box(&q), black_box(&rows), &mut rust),
        &mut || our_rows(measured_one, black_box(&q), black_box(&rows), &mut one),
        &mut || our_rows(measured_eight, black_box(&q), black_box(&rows), &mut eight),
        &mut || our_rows(measured_block, black_box(&q), black_box(&turned), &mut block),
        &mut || turn(black_box(&rows), features, black_box(&mut again)),
    ]);
    same_bits(&rust, &one);
    same_bits(&rust, &eight);
    same_bits(&rust, &block);
    same_bits(&turned, &again);
    println!(
        "distance, {features} features: Rust {:.1} ns a row; one row {:.2} of that, eight rows side by side {:.2}, as a block {:.2}, to turn rows into blocks {:.2}",
        times[0] / ROWS as f64,
        times[1] / times[0],
        times[2] / times[0],
        times[3] / times[0],
        times[4] / times[0]
    );
}

fn roots() {
    let xs: Vec<f32> = numbers(9, ROWS).iter().map(|x| x * x * 48.0).collect();
    let (mut rust, mut ours) = (vec![0.0; ROWS], vec![0.0; ROWS]);
    let times = medians(&mut [
        &mut || {
            for (x, r) in black_box(&xs).iter().zip(&mut rust) {
                *r = x.sqrt();
            }
        },
        &mut || unsafe { measured_roots(black_box(&xs).as_ptr(), xs.len(), ours.as_mut_ptr(), ours.len()) },
    ]);
    same_bits(&rust, &ours);
    println!(
        "root: Rust {:.1} ns (the processor's instruction); ours, on whole numbers, {:.1} times that",
        times[0] / ROWS as f64,
        times[1] / times[0]
    );
}

fn main() {
    for features in [16, 48, 64] {
        distances(features);
    }
    roots();
}
