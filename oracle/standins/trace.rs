//! What the published code hands out while it runs, through the edits named `hand-out-..`.
use smallvec::SmallVec;
use std::cell::RefCell;

#[derive(Default)]
pub struct Trace {
    /// the length that `add_slice` divides by
    pub length: f32,
    /// the leaders' positions of each segment, in the order in which segments are carved
    pub draws: Vec<Vec<usize>>,
    /// if set, carving stops once the first leaders are drawn
    pub only_draws: bool,
    pub leaves: Vec<Vec<u32>>,
    /// for each call of `hashprune_insert` its node and the cells that are held, by rising hash
    pub cells: Vec<(u32, Vec<(u32, f32)>)>,
    /// for each call of `hashprune_insert` its node and the node's list afterwards
    pub merged: Vec<(u32, Vec<(u32, f32)>)>,
    pub centroid: Vec<f32>,
    pub lists_before_repair: Vec<Vec<u32>>,
    /// near and far end, in the order in which repair adds them
    pub bridges: Vec<(u32, u32)>,
    /// what the walk scores, in its order
    pub scored: Vec<(u32, f32)>,
    pub visited_count: usize,
}

thread_local! {
    static TRACE: RefCell<Trace> = RefCell::default();
}

fn note<T>(change: impl FnOnce(&mut Trace) -> T) -> T {
    TRACE.with(|trace| change(&mut trace.borrow_mut()))
}

/// Hands over what was noted, and starts anew.
pub fn take() -> Trace {
    note(std::mem::take)
}

pub fn only_draws() {
    note(|t| t.only_draws = true)
}

pub fn length(norm: f32) {
    note(|t| t.length = norm)
}

pub fn leaders(positions: &[usize]) -> bool {
    note(|t| {
        t.draws.push(positions.to_vec());
        t.only_draws
    })
}

pub fn leaves(leaves: &[Vec<u32>]) {
    note(|t| t.leaves = leaves.to_vec())
}

pub fn cells(node: u32, held: &[(u32, f32)]) {
    note(|t| t.cells.push((node, held.to_vec())))
}

pub fn merged(node: u32, list: &[(u32, f32)]) {
    note(|t| t.merged.push((node, list.to_vec())))
}

pub fn centroid(centroid: &[f32]) {
    note(|t| t.centroid = centroid.to_vec())
}

pub fn lists_before_repair(lists: &[SmallVec<[u32; 32]>]) {
    note(|t| t.lists_before_repair = lists.iter().map(|list| list.to_vec()).collect())
}

pub fn bridge(near: u32, far: u32) {
    note(|t| t.bridges.push((near, far)))
}

pub fn scored(node: u32, distance: f32) {
    note(|t| t.scored.push((node, distance)))
}

pub fn visited(count: usize) {
    note(|t| t.visited_count = count)
}
