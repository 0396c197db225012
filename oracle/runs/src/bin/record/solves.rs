//! Calls of the solvers as they are recorded: sound ones that are drawn, and damaged ones, with what the repaired Rust
//! answers.
pub mod damage;
pub mod drawn;
pub mod recorded;
pub mod vectors;
