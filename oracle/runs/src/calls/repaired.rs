//! The repaired Rust, which has the adaptive numbers in its code: it is asked where a call has these.
#[path = "theirs.rs"]
mod theirs;

use super::call::adaptive_numbers;
use crate::entries::Settings;
use ::repaired as rust;
use rust::graph::PushGraph;
use rust::solver::backward_push::BackwardPushConfig;
use rust::solver::forward_push::ForwardPushConfig;
pub use theirs::{done, Run, Theirs};

/// Whether it can be asked for a solve with these settings: they have the adaptive numbers that are in its code.
pub fn takes(settings: &Settings) -> bool {
    adaptive_numbers(settings) == adaptive_numbers(&Settings::DEFAULT)
}

/// Settings as its forward solver takes them, without the adaptive numbers.
pub fn forward_config(settings: &Settings) -> ForwardPushConfig {
    ForwardPushConfig {
        alpha: settings.alpha,
        epsilon: settings.epsilon,
        max_pushes: settings.max_pushes as usize,
        queue_threshold: settings.queue_threshold,
        adaptive_threshold: settings.adaptive_threshold,
    }
}

/// The same as its backward solver takes them.
pub fn backward_config(settings: &Settings) -> BackwardPushConfig {
    let ForwardPushConfig { alpha, epsilon, max_pushes, queue_threshold, adaptive_threshold } = forward_config(settings);
    BackwardPushConfig { alpha, epsilon, max_pushes, queue_threshold, adaptive_threshold }
}

/// The graph, which is this copy's own.
fn graph_of(graph: PushGraph) -> PushGraph {
    graph
}
