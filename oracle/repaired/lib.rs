//! The repaired Rust: the files of `oracle/upstream` after `oracle/repair.patch`, which `oracle/repair` puts into
//! `target/oracle/repaired`. The upstream repository's own crate root is not among the files as given.
#![allow(unused_imports, dead_code)]

#[path = "../../target/oracle/repaired/src/graph/mod.rs"]
pub mod graph;

#[path = "../../target/oracle/repaired/src/solver"]
pub mod solver {
    pub mod backward_push;
    pub mod forward_push;
}
