//! The approach that `adaptive_solve` takes, and how often each was taken: the Rust returns a score alone, and which
//! pair of vectors is to be left at +0 depends on it.
use repaired::graph::PushGraph;
use std::sync::atomic::{AtomicU64, Ordering::Relaxed};

#[derive(Clone, Copy, PartialEq, Eq, Debug)]
pub enum Approach {
    Backward,
    Forward,
    Together,
    /// With a number that is no node nothing is pushed.
    Nowhere,
}

static TAKEN: [AtomicU64; 4] = [const { AtomicU64::new(0) }; 4];

/// How many solves had one node as source and target.
static FROM_A_NODE_TO_ITSELF: AtomicU64 = AtomicU64::new(0);

impl Approach {
    /// What docs/RULES.md says, on the raw degrees.
    pub fn of(graph: &PushGraph, source: u32, target: u32) -> Self {
        let (source, target) = (source as usize, target as usize);
        if source >= graph.num_nodes() || target >= graph.num_nodes() {
            return Self::Nowhere;
        }
        let (leaving, arriving) = (graph.degrees[source], graph.reverse_degrees[target]);
        match () {
            _ if leaving > 2.0 * arriving => Self::Backward,
            _ if arriving > 2.0 * leaving => Self::Forward,
            _ => Self::Together,
        }
    }

    pub fn pushes_forward(self) -> bool {
        matches!(self, Self::Forward | Self::Together)
    }

    pub fn pushes_backward(self) -> bool {
        matches!(self, Self::Backward | Self::Together)
    }
}

/// The approach, which is counted.
pub fn reached(graph: &PushGraph, source: u32, target: u32) -> Approach {
    let approach = Approach::of(graph, source, target);
    TAKEN[approach as usize].fetch_add(1, Relaxed);
    if source == target && approach != Approach::Nowhere {
        FROM_A_NODE_TO_ITSELF.fetch_add(1, Relaxed);
    }
    approach
}

/// How many solves took each.
pub fn taken() -> [(&'static str, u64); 4] {
    let count = |approach: Approach| TAKEN[approach as usize].load(Relaxed);
    [
        ("backward", count(Approach::Backward)),
        ("forward", count(Approach::Forward)),
        ("together", count(Approach::Together)),
        ("nowhere", count(Approach::Nowhere)),
    ]
}

pub fn from_a_node_to_itself() -> u64 {
    FROM_A_NODE_TO_ITSELF.load(Relaxed)
}
