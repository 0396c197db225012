//! The extended Rust, which has the adaptive numbers as settings: what every call is held to.
#[path = "theirs.rs"]
mod theirs;

use crate::entries::Settings;
use ::extended as rust;
use rust::graph::{CompressedSparseRow, PushGraph};
use rust::solver::backward_push::BackwardPushConfig;
use rust::solver::forward_push::ForwardPushConfig;
pub use theirs::{done, Run, Theirs};

/// Settings as one of its solvers takes them: both have the same fields.
macro_rules! config {
    ($config:ident, $settings:ident) => {
        $config {
            alpha: $settings.alpha,
            epsilon: $settings.epsilon,
            max_pushes: $settings.max_pushes as usize,
            queue_threshold: $settings.queue_threshold,
            adaptive_threshold: $settings.adaptive_threshold,
            adaptive_step: $settings.adaptive_step as usize,
            upper_size: $settings.upper_size as usize,
            lower_size: $settings.lower_size as usize,
            raising_factor: $settings.raising_factor,
            lowering_factor: $settings.lowering_factor,
            threshold_floor: $settings.threshold_floor,
        }
    };
}

/// As the forward solver takes them.
pub fn forward_config(settings: &Settings) -> ForwardPushConfig {
    config!(ForwardPushConfig, settings)
}

/// As the backward solver takes them.
pub fn backward_config(settings: &Settings) -> BackwardPushConfig {
    config!(BackwardPushConfig, settings)
}

/// The graph that the repaired Rust has made, as this copy has it: nothing of it is patched.
fn graph_of(graph: repaired::graph::PushGraph) -> PushGraph {
    let repaired::graph::PushGraph { adjacency, reverse_adjacency, degrees, reverse_degrees } = graph;
    let rows = |rows: repaired::graph::CompressedSparseRow| {
        let repaired::graph::CompressedSparseRow { nrows, ncols, row_ptr, col_indices, values } = rows;
        CompressedSparseRow { nrows, ncols, row_ptr, col_indices, values }
    };
    PushGraph { adjacency: rows(adjacency), reverse_adjacency: rows(reverse_adjacency), degrees, reverse_degrees }
}
