//! What the oracle's copy of the published Rust hands out (oracle/edits.py), thrown away, so that it takes no time.
use smallvec::SmallVec;

pub fn length(_: f32) {}

pub fn leaders(_: &[usize]) -> bool {
    false
}

pub fn leaves(_: &[Vec<u32>]) {}

pub fn cells(_: u32, _: &[(u32, f32)]) {}

pub fn merged(_: u32, _: &[(u32, f32)]) {}

pub fn centroid(_: &[f32]) {}

pub fn lists_before_repair(_: &[SmallVec<[u32; 32]>]) {}

pub fn bridge(_: u32, _: u32) {}

pub fn scored(_: u32, _: f32) {}

pub fn visited(_: usize) {}
