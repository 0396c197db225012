#![doc = include_str!("../README.md")]
// The calls as methods of `Links` and `Rows`; `entries` has them as they are exported.
mod answers;
pub mod entries;
mod graph;
mod pointers;
mod refusal;
mod solves;
mod space;

pub use answers::{Joined, Matrix, OwnedRows, Query, Reachability, Solution};
pub use entries::{compute_residual_norm, square_root, Links, Rows, Settings};
pub use graph::{combine_with_forward, extrapolated_solution};
pub use refusal::Refusal;
