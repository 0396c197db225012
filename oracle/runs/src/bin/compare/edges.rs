//! What `has_edge` and `edge_weight` find against what the Rust's `AdjacencyList` finds: in every small list, for every pair of
//! nodes, and in random graphs and long rows, for some pairs. `graph` compares their refusals.
mod asking;
mod lent_rows;
mod met;

use crate::calls::buffer::turned;
use crate::calls::lists;
use crate::calls::made::Made;
use crate::calls::sound::{MOST_LINKS, MOST_NODES};
use crate::Asked;
use asking::Asking;
use lent_rows::LentRows;
use met::{Met, Pair};
use runs::calls::call::Call;
use runs::calls::entry::{Entry, SEARCHES};
use runs::calls::given::neighbours;
use runs::calls::outcome::Returned;
use runs::calls::refusal::refusal;
use runs::calls::searched::searched;
use runs::comparison::Comparison;
use runs::random::Random;

/// A link of a small list weighs what its place says, so that one knows which was found. With any of these it is a link.
const WEIGHTS: [f64; 5] = [2.5, -0.0, 5e-324, 0.0, 1.0];

/// Graphs with one long row: the nodes, the links of that row, and how many are drawn in the gate and in a full run.
const LONG_ROWS: [(u32, usize, u64, u64); 4] =
    [(20, 10, 2_000, 50_000), (1_000, 1_000, 100, 3_000), (MOST_NODES, 65_536, 5, 150), (MOST_NODES, MOST_LINKS, 3, 60)];

/// The longest row of which every one is tried: a search goes through a row in blocks of eight columns, and this has four and one
/// column more.
const LONGEST: usize = 33;

pub fn compare(asked: &Asked, comparison: &mut Comparison, random: &mut Random) {
    small_lists(asked, comparison);
    blocks(comparison);
    random_graphs(asked, comparison, random);
    long_rows(asked, comparison, random);
}

fn random_graphs(asked: &Asked, comparison: &mut Comparison, random: &mut Random) {
    /// Draws a graph of up to so many nodes and links, or of exactly so many.
    type Draw = fn(&mut Random, u32, usize, bool) -> Call;
    for (kind, graph) in [("lists", lists::random as Draw), ("rows", lists::rows)] {
        for (nodes, links, gate, full) in lists::SIZES.into_iter().filter(|size| asked.draws(size.0)) {
            let name = format!("random {kind} of up to {nodes} nodes and {links} links");
            // One in three is of exactly the size.
            let graph = |random: &mut Random, number: u64| graph(random, nodes, links, number % 3 == 0);
            drawn(comparison, random, &name, asked.size(gate, full), graph);
        }
    }
}

fn long_rows(asked: &Asked, comparison: &mut Comparison, random: &mut Random) {
    for (nodes, links, gate, full) in LONG_ROWS.into_iter().filter(|size| asked.draws(size.0)) {
        let name = format!("rows of {nodes} nodes, one of {links} links");
        drawn(comparison, random, &name, asked.size(gate, full), |random, _| lists::long_row(random, nodes, links));
    }
}

/// Compares so many graphs that are drawn, each for some pairs.
fn drawn(
    comparison: &mut Comparison,
    random: &mut Random,
    name: &str,
    count: u64,
    graph: impl Fn(&mut Random, u64) -> Call,
) {
    let inputs = (0..count).map(|number| {
        let graph = graph(random, number);
        Asking::some_pairs(random, graph)
    });
    comparison.kind(&format!("edges, {name}"), inputs, |asking| difference(asking, None, None), Asking::smaller);
}

/// Whole in every run but a short one. Up to two links have each weight in each place; more have it in a full run.
fn small_lists(asked: &Asked, comparison: &mut Comparison) {
    let met = Met::default();
    for links in 0..=if asked.short { 2 } else { 4 } {
        let turns = match links {
            0 => 1,
            1 | 2 => WEIGHTS.len() as u64,
            _ => asked.size(1, WEIGHTS.len() as u64),
        };
        let inputs = (0..turns).flat_map(|turn| every_list(3, links, turn as usize));
        let name = format!("edges, every list of up to 3 nodes and {links} links, every pair");
        comparison.kind(&name, inputs, |asking| difference(asking, None, Some(&met)), Asking::smaller);
    }
    comparison.reached("edges, pairs of small lists", &met.counts());
}

/// Every list of up to so many nodes and exactly so many links, each with every pair. The turn says which weight is the first.
fn every_list(nodes: u32, links: u32, turn: usize) -> impl Iterator<Item = Asking> {
    lists::every(nodes, links, [1.0]).map(move |mut graph| {
        let weights = WEIGHTS.iter().cycle().skip(turn);
        graph.weights.iter_mut().zip(weights).for_each(|(weight, told)| *weight = *told);
        Asking::every_pair(graph)
    })
}

/// Whole in every run.
fn blocks(comparison: &mut Comparison) {
    let inputs = (0..=LONGEST).flat_map(|links| {
        let places = move || (0..links).chain([links]);
        places().flat_map(move |first| places().map(move |second| row_between(links, first, second)))
    });
    let name = format!("edges, a row of each length up to {LONGEST}, the node in each place, in each two and in none");
    comparison.kind(&name, inputs, |asking| difference(asking, None, None), Asking::smaller);
}

/// A row of so many links, of which those in two places lead to another node than the others, if the places are inside. The rows
/// before it and behind it lead to that node too, so that a search which leaves its row finds it. Each weight tells its place.
fn row_between(links: usize, first: usize, second: usize) -> Asking {
    let (row, sought, other) = (1, 3, 0);
    let mut columns = vec![other; links];
    [first, second].into_iter().filter(|&place| place < links).for_each(|place| columns[place] = sought);
    let columns = [&[sought], &columns[..], &[sought]].concat();
    let starts = [0, 1, 1 + links, 2 + links, 2 + links].map(|start| start as u32).to_vec();
    let weights = (0..columns.len()).map(|place| place as f64).collect();
    let graph = Call::on_rows(Entry::HasEdge, 4, starts, columns, weights);
    Asking::sound(graph, vec![(row, sought), (row, other), (row, 2), (row - 1, sought), (row + 1, sought)])
}

/// Each search with a wrong answer where it finds a link between two nodes.
pub fn planted(comparison: &mut Comparison) {
    for entry in SEARCHES {
        let spoiled = |asking: &Asking| difference(asking, Some(entry), None);
        comparison.kind(&format!("{}, planted", entry.name()), every_list(2, 1, 0), spoiled, Asking::smaller);
    }
}

/// What differs, if anything. Where an entry is to be spoiled, what it finds on two nodes is; pairs are counted where that is
/// asked.
fn difference(asking: &Asking, spoiled: Option<Entry>, met: Option<&Met>) -> Option<String> {
    let graph = &asking.graph;
    // Every input is sound, but what is smaller than one need not be.
    if refusal(graph) != 0 {
        return None;
    }
    let theirs = neighbours(graph);
    let mut ours = LentRows::new(rows(graph));
    if let Some(met) = met {
        asking.pairs.iter().for_each(|&(from, to)| met.count(&Pair::new(graph, &theirs, from, to)));
    }
    let unlike = SEARCHES.into_iter().find_map(|entry| {
        let name = entry.name();
        asking.pairs.iter().find_map(|&(from, to)| {
            let mut returned = ours.search(entry, from, to);
            if spoiled == Some(entry) && graph.nodes == 2 {
                spoil(&mut returned);
            }
            returned.unlike(searched(&theirs, entry, from, to), &name)
        })
    });
    unlike.or_else(|| ours.altered())
}

/// The rows of a graph: of a list of links, what a caller makes of it by `from_edges`.
fn rows(graph: &Call) -> Call {
    if graph.entry.takes_rows() {
        Call { entry: Entry::HasEdge, ..graph.clone() }.with_stated_lengths()
    } else {
        Made::of(graph).on_rows_left(Entry::HasEdge)
    }
}

/// Makes a link that was found one that was not, or turns the last digit of its weight.
fn spoil(returned: &mut Returned) {
    match returned {
        Returned::Found(found) => found.found = false,
        Returned::Weighed(weighed) if weighed.found => weighed.weight = turned(weighed.weight),
        _ => {}
    }
}
