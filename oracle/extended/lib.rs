//! The extended Rust: the repaired files after `oracle/extend.patch`, which `oracle/repair` puts into `target/oracle/extended`, and
//! what they tell of themselves.
#![allow(unused_imports, dead_code)]

pub mod adaptions;

#[path = "../../target/oracle/extended/src/graph/mod.rs"]
pub mod graph;

#[path = "../../target/oracle/extended/src/solver"]
pub mod solver {
    pub mod backward_push;
    pub mod forward_push;
}
