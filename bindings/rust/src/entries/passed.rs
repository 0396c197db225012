//! What the calls of the solvers are given, what they are lent to write, and what they return.

/// The settings of a solve, which are passed by value. With an adaptive threshold, the six numbers after the flag say when and how
/// it adapts.
#[repr(C)]
#[derive(Clone, Copy, Debug)]
pub struct Settings {
    pub alpha: f64,
    pub epsilon: f64,
    pub queue_threshold: f64,
    pub max_pushes: u64,
    pub adaptive_threshold: bool,
    /// After each so many pushes the threshold adapts.
    pub adaptive_step: u64,
    /// If more nodes than this wait, it is multiplied by `raising_factor`.
    pub upper_size: u32,
    /// If fewer nodes than this wait, and it is above `threshold_floor`, it is multiplied by `lowering_factor`.
    pub lower_size: u32,
    pub raising_factor: f64,
    pub lowering_factor: f64,
    pub threshold_floor: f64,
}

impl Settings {
    /// The settings that the Rust has where none are given.
    pub const DEFAULT: Self = Self {
        alpha: 0.15,
        epsilon: 1e-6,
        queue_threshold: 1e-8,
        max_pushes: 1_000_000,
        adaptive_threshold: true,
        adaptive_step: 1_000,
        upper_size: 10_000,
        lower_size: 100,
        raising_factor: 1.1,
        lowering_factor: 0.9,
        threshold_floor: 1e-12,
    };
}

impl Default for Settings {
    fn default() -> Self {
        Self::DEFAULT
    }
}

/// What a solve returns: the refusal number, 0 where it is done, the counts, and the norm of the residual.
#[repr(C)]
#[derive(Clone, Copy, Debug)]
pub struct Solved {
    pub refusal: u32,
    pub push_count: u64,
    pub nodes_visited: u64,
    pub residual_norm: f64,
}

/// What a query returns: the refusal number, 0 where it is done, and the score.
#[repr(C)]
#[derive(Clone, Copy, Debug)]
pub struct Scored {
    pub refusal: u32,
    pub score: f64,
}

/// A list of links among n nodes.
#[derive(Clone, Copy, Debug)]
pub struct Links<'a> {
    pub n: u32,
    pub from: &'a [u32],
    pub to: &'a [u32],
    pub weight: &'a [f64],
}

/// The rows of n nodes.
#[derive(Clone, Copy, Debug)]
pub struct Rows<'a> {
    pub n: u32,
    pub starts: &'a [u32],
    pub columns: &'a [u32],
    pub weights: &'a [f64],
}

/// Both vectors of a solve's answer.
pub struct Pair<'a> {
    pub estimate: &'a mut [f64],
    pub residual: &'a mut [f64],
}

/// Workspace for rows: those of a list of links, or reverse rows.
pub struct RowBuffers<'a> {
    pub starts: &'a mut [u32],
    pub columns: &'a mut [u32],
    pub weights: &'a mut [f64],
}

/// Workspace for the queue and the marks.
pub struct QueueBuffers<'a> {
    pub priorities: &'a mut [f64],
    pub nodes: &'a mut [u32],
    pub queued: &'a mut [u64],
    pub visited: &'a mut [u64],
}
