//! A solve to be recorded, with how long each list is that it is lent to read, and what the repaired Rust answers.
use repaired::graph::PushGraph;
use runs::calls::call::{Call, Wish};
use runs::calls::entry::Entry;
use runs::calls::outcome::Outcome;
use runs::calls::repaired::done;

/// The lists that are read, as `Recorded` numbers them.
pub const FIRST: usize = 0;
pub const SECOND: usize = 1;
pub const THIRD: usize = 2;

pub struct Recorded {
    pub call: Call,
    /// How long the graph's three lists are lent, and that of sources or targets. A damage changes these, and leaves the
    /// lists as they are.
    pub read: [usize; 4],
}

impl Recorded {
    /// A call on links among n nodes, or on the rows of those that are kept.
    pub fn on_links(entry: Entry, nodes: u32, links: &[(u32, u32, f64)], wish: Wish) -> Self {
        let call = if entry.takes_rows() {
            let wide: Vec<_> = links.iter().map(|&(from, to, weight)| (from as usize, to as usize, weight)).collect();
            Call::on_matrix(entry, &PushGraph::from_edges(nodes as usize, &wide).adjacency)
        } else {
            Call { entry, ..Call::on_links(nodes, links) }.with_stated_lengths()
        };
        let call = call.wishing(wish);
        let read = [call.first.len(), call.second.len(), call.weights.len(), call.wish.many.len()];
        Self { call, read }
    }

    /// What the Rust answers to a sound call.
    pub fn outcome(&self) -> Outcome {
        let Entry::Solve(question, _) = self.call.entry else { unreachable!("a solve") };
        done(&self.call, question)
    }

    /// The vectors of that answer.
    pub fn vectors(&self) -> Vec<Vec<f64>> {
        let Outcome::Done { answer, .. } = self.outcome() else { unreachable!("a sound call") };
        answer.iter().map(|contents| contents.reals().to_vec()).collect()
    }
}
