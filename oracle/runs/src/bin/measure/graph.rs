//! The graph store's calls beside the Rust's `PushGraph` and its rows, on random links.
use crate::given::Given;
use crate::keep;
use crate::table;
use crate::theirs::Done;
use crate::work::{Work, COLUMNS};
use runs::calls::entry::{Entry, BUILDERS};

/// The name of two calls together, which make all that the Rust's graph holds.
pub const WHOLE: &str = "from_edges, from_matrix";

pub fn measure(given: &[Given; 3]) {
    table::head("Graph store: time per link", &["call", "nodes; links"], &COLUMNS);
    let sizes = || given.iter().zip([101, 31, 15]);
    for (given, rounds) in sizes() {
        whole(given).print(rounds);
    }
    for entry in BUILDERS {
        for (given, rounds) in sizes() {
            given.divided(entry).print(rounds);
        }
    }
}

/// `from_edges`, and `from_matrix` on the rows that it leaves: all that the Rust's `PushGraph::from_edges` makes.
pub fn whole(given: &Given) -> Work<'_> {
    let mut rows = given.ours(Entry::FromEdges, &given.wish);
    let mut reverse = given.ours(Entry::FromMatrix, &given.wish);
    // Both calls can be lent the same positions.
    let lent = rows.lent() + reverse.lent() - 4 * given.nodes;
    Work {
        labels: vec![WHOLE.split(", ").map(table::name).collect::<Vec<_>>().join(", "), given.size()],
        units: given.edges.len(),
        lent,
        ours: Box::new(move || {
            keep(rows.make());
            reverse.make_on(&rows)
        }),
        theirs: Box::new(move || Done::listed(given.from_links())),
    }
}
