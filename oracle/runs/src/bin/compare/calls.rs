//! Calls of the entries that take a graph: how each is made and compared, and where calls worth making come from.
pub mod buffer;
pub mod damaged;
pub mod empty;
pub mod limits;
pub mod lists;
pub mod made;
pub mod part;
pub mod sharing;
pub mod smaller;
pub mod sound;
pub mod wishes;
