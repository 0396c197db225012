//! Recorded answers of the repaired Rust's solvers, one record to a call: `record` writes them, and `compare` reads them and
//! makes the calls of the proved library, without the Rust.
mod bytes;
pub mod called;
pub mod layout;
