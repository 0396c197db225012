//! What pairs of nodes are met in small lists, and how many of each.
use repaired::graph::{AdjacencyList, Graph};
use runs::calls::call::Call;
use std::cell::Cell;

/// A pair, and the weight that the Rust finds for it.
pub struct Pair<'a> {
    graph: &'a Call,
    from: u32,
    to: u32,
    weight: Option<f64>,
}

/// What a pair can be, and when it is.
type Kind = (&'static str, fn(&Pair) -> bool);

const KINDS: [Kind; 10] = [
    ("asked for", |_| true),
    ("found", |pair| pair.weight.is_some()),
    ("not found", |pair| pair.weight.is_none()),
    ("from no node", |pair| pair.from >= pair.graph.nodes),
    ("to no node", |pair| pair.to >= pair.graph.nodes),
    ("found of +0", |pair| pair.weighs(0.0)),
    ("found of -0", |pair| pair.weighs(-0.0)),
    ("found of a subnormal weight", |pair| pair.weight.is_some_and(f64::is_subnormal)),
    ("found first of several", |pair| pair.weight.is_some() && pair.listed() > 1),
    ("found from a node to itself", |pair| pair.weight.is_some() && pair.from == pair.to),
];

/// How many pairs were of each kind.
#[derive(Default)]
pub struct Met([Cell<u64>; KINDS.len()]);

impl<'a> Pair<'a> {
    pub fn new(graph: &'a Call, lists: &AdjacencyList, from: u32, to: u32) -> Self {
        Self { graph, from, to, weight: lists.edge_weight(from as usize, to as usize) }
    }

    fn weighs(&self, weight: f64) -> bool {
        self.weight.is_some_and(|found| found.to_bits() == weight.to_bits())
    }

    /// How often the list has it.
    fn listed(&self) -> usize {
        let ends = self.graph.first.iter().zip(&self.graph.second);
        ends.filter(|&(&from, &to)| (from, to) == (self.from, self.to)).count()
    }
}

impl Met {
    pub fn count(&self, pair: &Pair) {
        for (count, (_, is_one)) in self.0.iter().zip(KINDS) {
            count.set(count.get() + u64::from(is_one(pair)));
        }
    }

    pub fn counts(&self) -> Vec<(&'static str, u64)> {
        KINDS.iter().zip(&self.0).map(|((name, _), count)| (*name, count.get())).collect()
    }
}
