//! Stand-in for the module that saves and loads an index: the oracle does neither.
use crate::error::{Result, RetrieveError};
use smallvec::SmallVec;
use std::path::Path;

type Lists = [SmallVec<[u32; 32]>];

fn left_out<T>() -> Result<T> {
    Err(RetrieveError::Other(
        "the oracle neither saves nor loads".into(),
    ))
}

pub fn write_json_atomic<T>(_: &Path, _: &T) -> Result<()> {
    left_out()
}

pub fn write_f32_atomic(_: &Path, _: &[f32]) -> Result<()> {
    left_out()
}

pub fn write_u32_atomic(_: &Path, _: &[u32]) -> Result<()> {
    left_out()
}

pub fn write_neighbors_atomic(_: &Path, _: &[u8; 8], _: &Lists) -> Result<()> {
    left_out()
}

pub fn read_json<T>(_: &Path) -> Result<T> {
    left_out()
}

pub fn read_f32_exact(_: &Path, _: usize) -> Result<Vec<f32>> {
    left_out()
}

pub fn read_u32_exact(_: &Path, _: usize) -> Result<Vec<u32>> {
    left_out()
}

pub fn read_neighbors(_: &Path, _: &[u8; 8], _: usize) -> Result<Vec<SmallVec<[u32; 32]>>> {
    left_out()
}

pub fn validate_graph_shape(
    _: &str,
    _: usize,
    _: usize,
    _: &[f32],
    _: &[u32],
    _: &Lists,
    _: Option<u32>,
) -> Result<()> {
    left_out()
}
