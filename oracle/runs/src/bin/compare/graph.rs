//! `from_edges`, `from_matrix`, `transpose` and `row_sums` against the Rust's `PushGraph` and `CompressedSparseRow`,
//! and against the refusals of docs/RULES.md. Each call is compared whole: what it returns, and every word of every buffer. The
//! refusals of `has_edge` and `edge_weight` are here too; `edges` has their answers.
mod expected;

use crate::calls::made::{self, Made};
use crate::calls::smaller::smaller;
use crate::calls::sound::{MOST_LINKS, MOST_NODES};
use crate::calls::wishes::each_link;
use crate::calls::{damaged, empty, limits, lists, sharing};
use crate::Asked;
use repaired::graph::PushGraph;
use runs::calls::call::Call;
use runs::calls::entry::{store, Entry, Form};
use runs::calls::given::{graph_of_links, matrix};
use runs::calls::outcome::Outcome;
use runs::calls::refusal::{misread, refusal};
use runs::comparison::Comparison;
use runs::random::Random;

/// Three whose sum from the left is not that from the right, and -0.0, whose sign a row keeps and a sum loses.
const SUMMED_WEIGHTS: [f64; 4] = [0.1, 0.2, 0.3, -0.0];

pub fn compare(asked: &Asked, comparison: &mut Comparison, random: &mut Random) {
    small_lists(asked, comparison);
    refusals(asked, comparison, random);
    random_lists(asked, comparison, random);
    random_rows(asked, comparison, random);
    sharing(asked, comparison, random);
    largest(comparison);
}

fn small_lists(asked: &Asked, comparison: &mut Comparison) {
    for links in 0..=asked.every_up_to(3, 4) as u32 {
        let name = format!("graph, every list of up to 3 nodes and {links} links");
        comparison.kind(&name, lists::every(3, links, SUMMED_WEIGHTS), of_links, smaller);
    }
}

fn random_lists(asked: &Asked, comparison: &mut Comparison, random: &mut Random) {
    for (nodes, links, gate, full) in lists::SIZES.into_iter().filter(|size| asked.draws(size.0)) {
        // One in three is of exactly the size.
        let inputs = (0..asked.size(gate, full)).map(|number| lists::random(random, nodes, links, number % 3 == 0));
        let name = format!("graph, random lists of up to {nodes} nodes and {links} links");
        comparison.kind(&name, inputs, of_links, smaller);
    }
    let sizes = [1, 2, 3, 10, 100, 1_000, MOST_NODES - 1, MOST_NODES];
    for nodes in sizes.into_iter().filter(|&nodes| asked.draws(nodes)) {
        let turns = if nodes > 1_000 { asked.size(1, 5) } else { asked.size(5, 50) };
        let inputs = (0..turns).flat_map(|_| lists::planned(random, nodes));
        comparison.kind(&format!("graph, planned lists of {nodes} nodes"), inputs, of_links, smaller);
    }
}

fn random_rows(asked: &Asked, comparison: &mut Comparison, random: &mut Random) {
    let classes = [
        (8, 40, asked.size(20_000, 500_000)),
        (1_000, 10_000, asked.size(100, 3_000)),
        (MOST_NODES, MOST_LINKS, asked.size(3, 60)),
    ];
    for (nodes, links, count) in classes.into_iter().filter(|class| asked.draws(class.0)) {
        let inputs = (0..count).map(|number| lists::rows(random, nodes, links, number % 3 == 0));
        let name = format!("graph, random rows of up to {nodes} nodes and {links} links");
        comparison.kind(&name, inputs, of_rows, smaller);
    }
}

fn refusals(asked: &Asked, comparison: &mut Comparison, random: &mut Random) {
    for entry in store() {
        damaged::compare_each(entry, comparison, of_call);
        empty::compare(entry, comparison, of_call);
        let mut kind = |name: &str, inputs: &mut dyn Iterator<Item = Call>| {
            comparison.kind(&format!("{}, {name}", entry.name()), inputs.flat_map(each_link), of_call, smaller);
        };
        kind("limits of weight, in each place", &mut limits::weights(entry).into_iter());
        kind("each length, and each two", &mut limits::lengths(entry).into_iter());
        kind("each two damages", &mut damaged::pairs(entry, !asked.short));
        let all = damaged::damages(entry);
        let several = (0..asked.size(2_000, 50_000)).map(|_| damaged::several(random, entry, &all));
        kind("several damages", &mut several.into_iter());
        if entry.takes_rows() {
            kind("every rows of up to 3 nodes and 3 links, sound or not", &mut limits::every_rows(entry, 3, 3));
        }
    }
}

fn sharing(asked: &Asked, comparison: &mut Comparison, random: &mut Random) {
    let count = asked.size(2_000, 50_000).max(200);
    let inputs = (0..count).map(|number| sharing::drawn(random, if number % 4 == 0 { Form::Links } else { Form::Rows }));
    made::forget();
    comparison.kind("graph, lists to be read that share memory", inputs, of_shared, smaller);
    comparison.reached("graph, lists that shared memory", &made::shared(false));
}

/// These come last: what fails elsewhere too is found there at a smaller input.
fn largest(comparison: &mut Comparison) {
    for entry in store() {
        let inputs = limits::sizes(entry).flat_map(each_link);
        comparison.kind(&format!("{}, limits of size", entry.name()), inputs, of_call, smaller);
    }
    let by_hand = limits::by_hand(&store().collect::<Vec<_>>());
    comparison.kind("graph, edges done by hand", by_hand.into_iter(), of_edge, |_| Vec::new());
}

/// A call of `from_edges`, and the three others on the rows that the Rust makes of it.
fn of_links(call: &Call) -> Option<String> {
    if refusal(call) != 0 {
        return of_call(call);
    }
    let graph = graph_of_links(call);
    Made::of(call).difference(&expected::built(&graph.adjacency, call.links())).or_else(|| on_rows_of(&graph))
}

/// The three entries that take rows, on the rows of a call of any one of them.
fn of_rows(call: &Call) -> Option<String> {
    if refusal(call) != 0 {
        return of_call(call);
    }
    on_rows_of(&PushGraph::from_matrix(&matrix(call)))
}

fn on_rows_of(graph: &PushGraph) -> Option<String> {
    let rows = &graph.adjacency;
    let differs = |entry: Entry, outcome: Outcome| Made::of(&Call::on_matrix(entry, rows)).difference(&outcome);
    differs(Entry::FromMatrix, expected::graph(graph))
        .or_else(|| differs(Entry::Transpose, expected::transposed(&rows.transpose())))
        .or_else(|| differs(Entry::RowSums, expected::sums(rows.row_sums())))
}

/// One call of any kind.
fn of_call(call: &Call) -> Option<String> {
    Made::of(call).difference(&expected::outcome(call))
}

/// Each entry that takes what the call is given, in lists by themselves and in lists that share memory.
fn of_shared(call: &Call) -> Option<String> {
    let alike = |entry: &Entry| entry.takes_rows() == call.entry.takes_rows();
    store().filter(alike).find_map(|entry| {
        let call = Call { entry, ..call.clone() }.with_stated_lengths();
        let outcome = expected::outcome(&call);
        Made::of(&call).difference(&outcome).or_else(|| Made::sharing(&call).difference(&outcome))
    })
}

/// A call whose number docs/RULES.md gives: what is expected of damaged calls is held to it too.
fn of_edge((call, number): &(Call, u32)) -> Option<String> {
    misread(call, *number).or_else(|| of_call(call))
}
