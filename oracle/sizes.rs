//! How many elements the stores and scratch have to have, and where the parts of the word store start (docs/SCOPE.md, Records). The oracle,
//! compare/ and bench/ take these from here; the library is not asked, so that its answers can be compared with them.

/// Words of the header.
pub const HEADER: usize = 16;

/// Words of a bridge: its near and its far end.
pub const BRIDGE: usize = 2;

/// The word store: header, doc ids, rows, bridges.
pub const fn words(capacity: usize, degree: usize) -> usize {
    HEADER + capacity * (4 + degree)
}

/// The float store.
pub const fn floats(capacity: usize, dimension: usize) -> usize {
    capacity * dimension
}

/// Scratch, in words and in floats.
pub const fn scratch(capacity: usize) -> (usize, usize) {
    (64 * capacity, 16 * capacity + 256)
}

/// A row: its count, then as many entries as it may have.
pub const fn row(degree: usize) -> usize {
    1 + degree
}

/// Where the rows start, behind the doc ids.
pub const fn rows_at(capacity: usize) -> usize {
    HEADER + capacity
}

pub const fn bridges_at(capacity: usize, degree: usize) -> usize {
    rows_at(capacity) + capacity * row(degree)
}
