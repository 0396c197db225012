//! The lists that a call is lent to write, in the lengths that it states.
use crate::entries::{Pair, QueueBuffers, RowBuffers};

const MOST_NODES: u32 = 65_536;
const MOST_LINKS: usize = 1_048_576;

/// How many nodes and links lists are made for.
#[derive(Clone, Copy)]
pub struct Size {
    nodes: usize,
    links: usize,
}

impl Size {
    /// Past a limit, the size of a graph with no nodes and no links: a call refuses such a number before it looks at lengths.
    pub fn of(n: u32, links: usize) -> Self {
        if n > MOST_NODES || links > MOST_LINKS {
            return Self { nodes: 0, links: 0 };
        }
        Self { nodes: n as usize, links }
    }

    pub fn reals(self) -> Vec<f64> {
        vec![0.0; self.nodes]
    }

    pub fn wholes(self) -> Vec<u32> {
        vec![0; self.nodes]
    }
}

/// Both vectors of an answer.
pub struct Vectors {
    pub estimate: Vec<f64>,
    pub residual: Vec<f64>,
}

impl Vectors {
    pub fn new(size: Size) -> Self {
        Self { estimate: size.reals(), residual: size.reals() }
    }

    pub fn lent(&mut self) -> Pair<'_> {
        Pair { estimate: &mut self.estimate, residual: &mut self.residual }
    }
}

/// Rows: an answer, or workspace.
pub struct RowSpace {
    pub starts: Vec<u32>,
    pub columns: Vec<u32>,
    pub weights: Vec<f64>,
}

impl RowSpace {
    pub fn new(size: Size) -> Self {
        Self { starts: vec![0; size.nodes + 1], columns: vec![0; size.links], weights: vec![0.0; size.links] }
    }

    pub fn lent(&mut self) -> RowBuffers<'_> {
        RowBuffers { starts: &mut self.starts, columns: &mut self.columns, weights: &mut self.weights }
    }
}

/// The queue and the marks.
pub struct QueueSpace {
    priorities: Vec<f64>,
    nodes: Vec<u32>,
    queued: Vec<u64>,
    visited: Vec<u64>,
}

impl QueueSpace {
    pub fn new(size: Size) -> Self {
        let words = size.nodes.div_ceil(64);
        Self { priorities: size.reals(), nodes: size.wholes(), queued: vec![0; words], visited: vec![0; words] }
    }

    pub fn lent(&mut self) -> QueueBuffers<'_> {
        QueueBuffers {
            priorities: &mut self.priorities,
            nodes: &mut self.nodes,
            queued: &mut self.queued,
            visited: &mut self.visited,
        }
    }
}
