//! What the Rust makes of a search for a link that is not refused.
use super::entry::Entry;
use super::outcome::Returned;
use crate::entries::{Found, Weighed};
use repaired::graph::{AdjacencyList, Graph};

/// What a search of the Rust's lists of neighbours returns.
pub fn searched(lists: &AdjacencyList, entry: Entry, from: u32, to: u32) -> Returned {
    let (from, to) = (from as usize, to as usize);
    match entry {
        Entry::HasEdge => Returned::Found(Found { refusal: 0, found: lists.has_edge(from, to) }),
        Entry::EdgeWeight => {
            let weight = lists.edge_weight(from, to);
            Returned::Weighed(Weighed { refusal: 0, found: weight.is_some(), weight: weight.unwrap_or(0.0) })
        }
        _ => unreachable!("a search"),
    }
}
