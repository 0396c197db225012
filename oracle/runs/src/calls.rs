//! Calls of the entries that take a graph: which there are, what each is given and lent, how it is made, where it is refused,
//! and what each copy of the Rust makes of it where it is not. `vectors` has the two that take vectors alone.
pub mod approach;
pub mod call;
pub mod entry;
pub mod extended;
pub mod given;
pub mod left;
pub mod lending;
pub mod make;
pub mod outcome;
pub mod refusal;
pub mod repaired;
pub mod searched;
pub mod shape;
pub mod vectors;
