//! The proved library's functions, as the archive exports them: every list is lent by the caller. `include/check`
//! holds the declarations to the Rattle source, and the programs of `oracle/runs` read this module too, so that what is
//! compared with the Rust is what the wrapper calls.
#[macro_use]
mod exported;
mod backward;
mod bidirectional;
mod forward;
mod graph;
mod norm;
mod passed;

pub use backward::*;
pub use bidirectional::*;
pub use forward::*;
pub use graph::*;
pub use norm::*;
pub use passed::*;
