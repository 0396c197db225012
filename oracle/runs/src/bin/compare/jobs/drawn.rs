//! Jobs that are sound, or nearly: every small list, random ones, graphs with a plan, many pushes, sources of all
//! kinds.
use super::input::Input;
use super::limits::ENTRY;
use crate::calls::lists;
use crate::calls::wishes;
use crate::solves::Layout;
use runs::calls::call::{Call, Wish};
use runs::calls::entry::Solver;
use runs::calls::extended::done;
use runs::entries::Settings;
use runs::jobs::bytes::{MOST_LINKS, MOST_NODES, MOST_SOURCES, QUESTION};
use runs::jobs::program::Way;
use runs::jobs::text::text;
use runs::random::Random;

/// Every list of up to 2 nodes and so many links, each with so many settings of the grid.
pub fn small(random: &mut Random, links: u32, each: u64) -> impl Iterator<Item = Input> + '_ {
    // Steps of 7 come to each place of the 600.
    let mut grid = wishes::grid().into_iter().cycle().step_by(7);
    lists::every(2, links, lists::FEW_WEIGHTS).flat_map(move |graph| {
        let call = graph.solving(QUESTION);
        let chosen: Vec<Settings> = grid.by_ref().take(each as usize).collect();
        let wished = |settings: Settings| {
            let wish = wishes::with_settings(random, &call, [settings; 2]);
            within(call.clone().wishing(wish))
        };
        chosen.into_iter().map(wished).collect::<Vec<_>>()
    })
}

/// Random lists of up to so many nodes and links: one in three is of exactly the size.
pub fn random(random: &mut Random, nodes: u32, links: usize, count: u64) -> impl Iterator<Item = Input> + '_ {
    (0..count).map(move |number| {
        let graph = lists::random(random, nodes, links, number % 3 == 0);
        wishing(random, graph)
    })
}

/// Graphs with a plan, so many times.
pub fn planned(random: &mut Random, nodes: u32, turns: u64) -> Vec<Input> {
    let graphs: Vec<Call> = (0..turns).flat_map(|_| lists::planned(random, nodes)).collect();
    graphs.into_iter().map(|graph| wishing(random, graph)).collect()
}

/// Few nodes, and sources that are repeated, out of range, all of them out of range, or none.
pub fn sources(random: &mut Random, count: u64) -> impl Iterator<Item = Input> + '_ {
    (0..count).map(move |_| {
        let graph = lists::random(random, 8, 24, false);
        let mut call = drawn(random, graph);
        let (nodes, some) = (u64::from(call.nodes), random.below(MOST_SOURCES as u64 + 1));
        let (from, among) = random.one_of(&[(0, 1), (0, nodes + 1), (0, nodes + 9), (nodes, 5), (nodes, 1 << 31)]);
        call.wish.many = (0..some).map(|_| (from + random.below(among)) as u32).collect();
        Input::of(&call)
    })
}

/// Jobs of every size, that come in pieces or as a file.
pub fn ways(random: &mut Random, count: u64) -> impl Iterator<Item = Input> + '_ {
    (0..count).map(move |number| {
        let (nodes, links) = random.one_of(&[(2, 1), (8, 24), (MOST_NODES, MOST_LINKS)]);
        let graph = lists::random(random, nodes, links, number % 3 == 0);
        let input = wishing(random, graph);
        let (length, some) = (input.bytes.len(), 1 + random.below(60) as usize);
        // At most some hundred pauses.
        let pieces = [1, 7, some, 4_096, 5_000, length - 1].map(|size| size.max(length / 200));
        let way = if random.below(4) == 0 { Way::File } else { Way::Pieces(random.one_of(&pieces)) };
        // One in five is a byte short, or has one too many.
        let mut bytes = input.bytes;
        match random.below(10) {
            0 => bytes.truncate(length - 1),
            1 => bytes.push(0),
            _ => (),
        }
        Input { bytes, way }
    })
}

/// Few nodes, pushed up to each thousand and one more, with a threshold that adapts, and with one that does not: that
/// makes another text of the first.
pub fn thousands(random: &mut Random, count: u64) -> Vec<Input> {
    let calls = Layout(Solver::Forward).thousands(random, count);
    let both: Vec<[Input; 2]> = calls.into_iter().map(|call| with_either_mark(call.solving(QUESTION))).collect();
    assert!(adapts(&both[0]), "a threshold that adapts makes another text");
    both.into_iter().flatten().collect()
}

/// A source with a link to each of so many nodes that the queue holds all of them at each thousand: below 100 the
/// threshold falls, and at 100 and above it stays.
pub fn queue_sizes() -> Vec<Input> {
    const ALPHA: f64 = 0.01;
    let of_size = |size: u32| {
        let links: Vec<_> = (1..=size).map(|leaf| (0, leaf, 1.0)).collect();
        // A part of what a node gets from the source, such that the nodes that leave the queue at last all leave it
        // between two thousands.
        let queue_threshold = 0.32 * (1.0 - ALPHA) / f64::from(size);
        let settings = Settings {
            alpha: ALPHA,
            epsilon: 0.0,
            queue_threshold,
            max_pushes: 20_000,
            adaptive_threshold: true,
            ..Settings::DEFAULT
        };
        let wish = Wish { many: vec![0], settings, ..Wish::default() };
        let inputs = with_either_mark(Call::on_links(size + 1, &links).solving(QUESTION).wishing(wish));
        assert_eq!(adapts(&inputs), size < 100, "the threshold adapts below a size, and not at it");
        inputs
    };
    (97..=103).flat_map(of_size).collect()
}

/// The job with a threshold that adapts, and with one that does not.
fn with_either_mark(call: Call) -> [Input; 2] {
    [true, false].map(|adaptive_threshold| {
        let settings = Settings { adaptive_threshold, ..call.wish.settings };
        within(call.clone().wishing(Wish { settings, ..call.wish.clone() }))
    })
}

fn adapts([adaptive, constant]: &[Input; 2]) -> bool {
    text(&adaptive.bytes, done) != text(&constant.bytes, done)
}

/// A job on the graph, with a wish that is drawn.
fn wishing(random: &mut Random, graph: Call) -> Input {
    within(drawn(random, graph))
}

fn drawn(random: &mut Random, graph: Call) -> Call {
    let call = graph.solving(QUESTION);
    let wish = wishes::drawn(random, &call);
    call.wishing(wish)
}

/// The job that asks for the call, with as many of its links and sources as are allowed.
fn within(mut call: Call) -> Input {
    call.first.truncate(MOST_LINKS);
    call.second.truncate(MOST_LINKS);
    call.weights.truncate(MOST_LINKS);
    call.wish.many.truncate(MOST_SOURCES);
    Input::of(&Call { entry: ENTRY, ..call })
}
