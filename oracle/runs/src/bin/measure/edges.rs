//! The searches for a link beside those of the Rust's `AdjacencyList`, in a row of few links and in one of many. The proved library
//! tests all rows before it searches one, and the Rust tests nothing, so the search is told apart: it is how much longer a call
//! takes that goes through a whole row, and finds nothing, than one that asks for a node out of range, and searches nothing. The
//! Rust's is told apart alike, so that neither has the call itself in it.
use crate::keep;
use crate::table;
use crate::theirs::Done;
use crate::work::{Side, Work};
use repaired::graph::{AdjacencyList, Graph};
use runs::calls::call::Call;
use runs::calls::entry::{Entry, SEARCHES};
use runs::calls::given::neighbours;
use runs::entries::{self, Rows};
use runs::timing::{elapsed, interleaved, interleaved_times};
use std::hint::black_box;
use std::time::Duration;

const ROUNDS: usize = 501;

/// How many links a row has, and how many calls are timed together: so many that the clock's own time is lost in theirs.
const ROWS: [(usize, usize); 2] = [(10, 20_000), (65_536, 20)];

/// The node that has all links. None leads back to it.
const HUB: u32 = 0;

/// A graph in which one node has all links, as both sides take it.
pub struct Row {
    call: Call,
    lists: AdjacencyList,
}

pub fn measure() {
    let columns = ["proved library: tests", "proved library: search", "Rust: search", "ratio of the searches"];
    table::head("Is there a link: time per call", &["call", "links of the row", "rounds", "calls in each"], &columns);
    for entry in SEARCHES {
        for (links, calls) in ROWS {
            Row::new(links).print(entry, calls);
        }
    }
}

impl Row {
    /// The hub links to all other nodes in turn, of which there are as many as links, or as many as are allowed.
    pub fn new(links: usize) -> Self {
        let nodes = (links + 1).min(65_536);
        let columns = (0..links).map(|place| 1 + (place % (nodes - 1)) as u32).collect();
        let mut starts = vec![links as u32; nodes + 1];
        starts[0] = 0;
        let call = Call::on_rows(Entry::HasEdge, nodes as u32, starts, columns, vec![1.0; links]);
        Self { lists: neighbours(&call), call }
    }

    /// So many calls that go through the whole row: each asks for a link from the hub to itself.
    pub fn search(&self, entry: Entry, calls: usize) -> Work<'_> {
        self.asking(entry, HUB, calls)
    }

    /// So many calls that search nothing: each asks for a link from a node out of range.
    fn no_search(&self, entry: Entry, calls: usize) -> Work<'_> {
        self.asking(entry, self.call.nodes, calls)
    }

    /// So many calls, each of which asks for a link from this node to the hub.
    fn asking(&self, entry: Entry, from: u32, calls: usize) -> Work<'_> {
        let Call { nodes, first, second, weights, .. } = &self.call;
        let rows = Rows { n: *nodes, starts: first, columns: second, weights };
        let (lists, node, hub) = (&self.lists, from as usize, HUB as usize);
        let (ours, theirs): (Side, Side) = match entry {
            Entry::HasEdge => (
                last_of(calls, move || entries::has_edge(black_box(rows), black_box(from), black_box(HUB)).found.into()),
                last_of(calls, move || black_box(lists).has_edge(black_box(node), black_box(hub)).into()),
            ),
            Entry::EdgeWeight => (
                last_of(calls, move || entries::edge_weight(black_box(rows), black_box(from), black_box(HUB)).weight),
                last_of(calls, move || black_box(lists).edge_weight(black_box(node), black_box(hub)).unwrap_or(0.0)),
            ),
            _ => unreachable!("a search"),
        };
        let labels = vec![table::name(&entry.name()), table::grouped(second.len())];
        Work { labels, units: calls, lent: 0, ours, theirs }
    }

    /// Prints the line of a table.
    fn print(&self, entry: Entry, calls: usize) {
        let (mut whole, mut none) = (self.search(entry, calls), self.no_search(entry, calls));
        whole.check();
        none.check();
        let tested = interleaved(ROUNDS, calls, || keep((none.ours)()), || keep((none.theirs)()));
        let searched = interleaved_times(
            ROUNDS,
            calls,
            || longer(&mut whole.ours, &mut none.ours),
            || longer(&mut whole.theirs, &mut none.theirs),
        );
        let mut cells = whole.labels;
        cells.extend([ROUNDS, calls].map(table::grouped));
        cells.push(table::time(tested.ours.median));
        cells.extend(table::sides(&searched));
        table::line(&cells);
    }
}

/// What the last of so many calls gives. All have the same to do, and each does it.
fn last_of<'a>(calls: usize, call: impl Fn() -> f64 + 'a) -> Side<'a> {
    Box::new(move || Done::number((0..calls).fold(0.0, |_, _| black_box(call()))))
}

/// How much longer one takes than the other.
fn longer(one: &mut Side, other: &mut Side) -> Duration {
    let took = |side: &mut Side| elapsed(|| keep(side()));
    took(one).saturating_sub(took(other))
}
