//! The calls of the graph store.
use super::{Links, RowBuffers, Rows};

/// What `from_edges` returns: the refusal number, 0 where the rows are built, and how many links they hold.
#[repr(C)]
#[derive(Clone, Copy, Debug, PartialEq, Eq)]
pub struct Built {
    pub refusal: u32,
    pub kept: u32,
}

/// What `has_edge` returns: the refusal number, 0 where the rows are searched, and whether there is a link.
#[repr(C)]
#[derive(Clone, Copy, Debug, PartialEq, Eq)]
pub struct Found {
    pub refusal: u32,
    pub found: bool,
}

/// What `edge_weight` returns: the same, and the weight of the first link, +0 where there is none.
#[repr(C)]
#[derive(Clone, Copy, Debug, PartialEq)]
pub struct Weighed {
    pub refusal: u32,
    pub found: bool,
    pub weight: f64,
}

exported! {
    fn from_edges(given: Links, rows: RowBuffers, positions: &mut [u32]) -> Built;
    fn from_matrix(
        given: Rows, reverse: RowBuffers, degrees: &mut [f64], reverse_degrees: &mut [f64], positions: &mut [u32]
    ) -> u32;
    fn transpose(given: Rows, reverse: RowBuffers, positions: &mut [u32]) -> u32;
    fn row_sums(given: Rows, degrees: &mut [f64]) -> u32;
    fn has_edge(given: Rows, from: u32, to: u32) -> Found;
    fn edge_weight(given: Rows, from: u32, to: u32) -> Weighed;
}
