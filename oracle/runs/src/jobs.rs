//! Jobs, as docs/RULES.md lays them out: the bytes of one, the call that they stand for, the text that a copy of the
//! Rust gives for it, and how a program that reads jobs is run.
pub mod bytes;
pub mod program;
pub mod text;
