//! The buffers that entries read and write: a name, a stated length, and what is held.

/// A stated length, for n nodes and m listed links.
#[derive(Clone, Copy, PartialEq, Eq)]
pub enum Size {
    /// n
    Nodes,
    /// n + 1
    Starts,
    /// m
    Links,
    /// n / 64, rounded up
    Words,
}

impl Size {
    pub fn of(self, nodes: u32, links: usize) -> usize {
        match self {
            Size::Nodes => nodes as usize,
            Size::Starts => nodes as usize + 1,
            Size::Links => links,
            Size::Words => (nodes as usize).div_ceil(64),
        }
    }
}

/// What a buffer holds: u32, u64 or f64.
#[derive(Clone, Copy, PartialEq, Eq)]
pub enum Kind {
    Whole,
    Wide,
    Real,
}

#[derive(Clone, Copy)]
pub struct Shape {
    pub name: &'static str,
    pub size: Size,
    pub kind: Kind,
}

const fn whole(name: &'static str, size: Size) -> Shape {
    Shape { name, size, kind: Kind::Whole }
}

const fn wide(name: &'static str, size: Size) -> Shape {
    Shape { name, size, kind: Kind::Wide }
}

const fn real(name: &'static str, size: Size) -> Shape {
    Shape { name, size, kind: Kind::Real }
}

pub const LIST: [Shape; 3] = [whole("from", Size::Links), whole("to", Size::Links), real("weight", Size::Links)];
pub const ROWS: [Shape; 3] = [whole("starts", Size::Starts), whole("columns", Size::Links), real("weights", Size::Links)];
pub const REVERSE_ROWS: [Shape; 3] =
    [whole("reverse_starts", Size::Starts), whole("reverse_columns", Size::Links), real("reverse_weights", Size::Links)];
pub const POSITIONS: [Shape; 1] = [whole("positions", Size::Nodes)];
pub const DEGREES: [Shape; 1] = [real("degrees", Size::Nodes)];
pub const REVERSE_DEGREES: [Shape; 1] = [real("reverse_degrees", Size::Nodes)];
pub const BOTH_DEGREES: [Shape; 2] = [real("in_degrees", Size::Nodes), real("out_degrees", Size::Nodes)];
pub const PAIR: [Shape; 2] = [real("estimate", Size::Nodes), real("residual", Size::Nodes)];
pub const SOLUTION: [Shape; 1] = [real("solution", Size::Nodes)];
pub const PAIRS: [Shape; 4] = [
    real("forward_estimate", Size::Nodes),
    real("forward_residual", Size::Nodes),
    real("backward_estimate", Size::Nodes),
    real("backward_residual", Size::Nodes),
];
pub const QUEUE: [Shape; 4] = [
    real("priorities", Size::Nodes),
    whole("nodes", Size::Nodes),
    wide("queued", Size::Words),
    wide("visited", Size::Words),
];
