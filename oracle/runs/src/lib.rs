//! What the programs `compare`, `measure`, `record`, `refused_examples`, `rules` and `rust_job` share.
pub mod calls;
pub mod comparison;
// The wrapper's own declarations: what it calls is what is compared.
#[path = "../../../bindings/rust/src/entries/mod.rs"]
pub mod entries;
pub mod fenced;
pub mod jobs;
pub mod lent;
pub mod patterns;
pub mod pointers;
pub mod random;
pub mod recorded;
pub mod timing;
