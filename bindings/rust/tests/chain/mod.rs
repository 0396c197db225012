//! The chain of docs/RULES.md: two nodes and a link from 0 to 1, its settings, and what its two solves give.
use talwighest::{Links, Rows, Settings, Solution};

/// Alpha, epsilon and threshold of the cases, and at most so many pushes.
pub fn settings(max_pushes: u64) -> Settings {
    Settings {
        alpha: 0.5,
        epsilon: 0.25,
        queue_threshold: 0.25,
        max_pushes,
        adaptive_threshold: false,
        ..Settings::default()
    }
}

pub const CHAIN: Links = Links { n: 2, from: &[0], to: &[1], weight: &[1.0] };
pub const CHAIN_ROWS: Rows = Rows { n: 2, starts: &[0, 1, 1], columns: &[1], weights: &[1.0] };

/// P1, which every forward solve of the chain gives that isn't stopped early.
pub fn forward() -> Solution {
    Solution {
        estimate: vec![0.5, 0.375],
        residual: vec![0.0, 0.125],
        push_count: 3,
        nodes_visited: 2,
        residual_norm: 0.125,
    }
}

/// P8.
pub fn backward() -> Solution {
    Solution { estimate: vec![0.375, 0.5], residual: vec![0.125, 0.0], ..forward() }
}
