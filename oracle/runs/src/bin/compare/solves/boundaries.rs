//! Graphs in which one of the two degrees that `adaptive_solve` compares, the source's and the target's, is twice the
//! other, or the next number up or down: there it turns from one approach to another.
use crate::calls::wishes::{self, next_down, next_up};
use runs::calls::approach::Approach;
use runs::calls::call::{Call, Wish};
use runs::calls::entry::Solver;
use runs::calls::given;
use runs::random::Random;

/// The weights of the links that leave the source, and of those that arrive at the target.
struct Degrees {
    leaving: Vec<f64>,
    arriving: Vec<f64>,
}

pub fn drawn(random: &mut Random, count: u64) -> Vec<Call> {
    (0..count).map(|_| one(random)).collect()
}

fn one(random: &mut Random) -> Call {
    let lesser = lesser(random);
    let twice = 2.0 * lesser.iter().fold(0.0, |sum, weight| sum + weight);
    let greater = random.one_of(&[twice, next_up(twice), next_down(twice)]);
    let parts = split(random, greater);
    let (degrees, past) = if random.below(2) == 0 {
        (Degrees { leaving: parts, arriving: lesser }, Approach::Backward)
    } else {
        (Degrees { leaving: lesser, arriving: parts }, Approach::Forward)
    };
    let call = laid(random, degrees);
    let approach = Approach::of(&given::graph(&call), call.wish.source, call.wish.target);
    let right = if greater > twice { past } else { Approach::Together };
    assert_eq!(approach, right, "only past twice the other degree one way is enough");
    call
}

/// Weights of which the greater degree, or its half, is still a weight that passes.
fn lesser(random: &mut Random) -> Vec<f64> {
    let single = random.one_of(&[5e-324, f64::MIN_POSITIVE, 0.1, 0.25, 0.5, 1.0, 3.0, 524_288.0, 786_432.1]);
    match random.below(4) {
        0 => Vec::new(),
        1 => vec![single],
        2 => (0..1 + random.below(4)).map(|_| (1 + random.below(10)) as f64 / 10.0).collect(),
        _ => (0..1 + random.below(4)).map(|_| random.unit()).collect(),
    }
}

/// The number as one weight, or as two halves where these give it exactly; none of it where it is zero, now and then.
fn split(random: &mut Random, number: f64) -> Vec<f64> {
    let half = number / 2.0;
    match random.below(2) {
        _ if number > 1_048_576.0 => vec![half, half],
        0 if number == 0.0 => Vec::new(),
        0 if half + half == number => vec![half, half],
        _ => vec![number],
    }
}

/// A graph of such degrees: node 0 is the source, node 1 the target, or node 0 is both, and links of other nodes lie
/// between. Half of the graphs number their nodes from the end.
fn laid(random: &mut Random, degrees: Degrees) -> Call {
    let nodes = 3 + random.below(5) as u32;
    let (source, target) = (0, random.one_of(&[0, 1, 1, 1]));
    let middle = |random: &mut Random| 2 + random.below(u64::from(nodes) - 2) as u32;
    // All that arrive come from one node: reverse rows run by rising row, and so their sum is that of the list.
    let last = middle(random);
    let mut links: Vec<(u32, u32, f64)> = Vec::new();
    links.extend(degrees.leaving.iter().map(|&weight| (source, middle(random), weight)));
    links.extend(degrees.arriving.iter().map(|&weight| (last, target, weight)));
    for _ in 0..random.below(12) {
        let from = 1 + random.below(u64::from(nodes) - 1) as u32;
        let to = middle(random);
        let place = random.below(links.len() as u64 + 1) as usize;
        links.insert(place, (from, to, random.unit()));
    }
    let backwards = random.below(2) == 0;
    let named = |node: u32| if backwards { nodes - 1 - node } else { node };
    let links: Vec<_> = links.into_iter().map(|(from, to, weight)| (named(from), named(to), weight)).collect();
    let call = Call::on_links(nodes, &links).solving(Solver::Bidirectional.first_question());
    let wish = Wish { source: named(source), target: named(target), ..wishes::drawn(random, &call) };
    call.wishing(wish)
}
