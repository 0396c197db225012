//! The two calls that take vectors and alpha alone, `extrapolated_solution` and `combine_with_forward`, against the
//! Rust's, and against the refusals of docs/RULES.md.
use crate::calls::buffer::{turned, Buffer};
use crate::calls::made::{self, note_refusal};
use crate::calls::part::{Memory, Part};
use crate::calls::sound::MOST_NODES;
use crate::calls::wishes::ALPHAS;
use crate::Asked;
use repaired::graph::PushGraph;
use repaired::solver::backward_push::{BackwardPushConfig, BackwardPushResult, BackwardPushSolver};
use repaired::solver::forward_push::{ForwardPushConfig, ForwardPushResult, ForwardPushSolver};
use runs::calls::lending::Lending;
use runs::calls::outcome::{Contents, Outcome, Returned};
use runs::calls::refusal::alpha_refused;
use runs::calls::shape::Kind;
use runs::calls::vectors::{Case, Entry};
use runs::comparison::Comparison;
use runs::entries::{self, Scored};
use runs::pointers::{null_if_empty, nulls};
use runs::random::Random;
use std::cell::Cell;

pub fn compare(asked: &Asked, entry: Entry, comparison: &mut Comparison, random: &mut Random) {
    let mut kind = |name: &str, inputs: Vec<Case>| {
        let difference = |case: &Case| difference(case, &expected(case), false);
        comparison.kind(&format!("{}, {name}", entry.name()), inputs.into_iter(), difference, smaller);
    };
    kind("any numbers", (0..asked.size(20_000, 500_000)).map(|_| any(random, entry, 12)).collect());
    kind("limits of alpha", ALPHAS.iter().map(|&alpha| Case { alpha, ..any(random, entry, 12) }).collect());
    made::forget();
    kind("each length and alpha", lengths(random, entry));
    let sizes = [0, 1, MOST_NODES as usize - 1, MOST_NODES as usize, MOST_NODES as usize + 1];
    kind("limits of size", sizes.iter().flat_map(|&size| around(random, entry, size)).collect());
    if entry.written() > 0 {
        let left = made::nans_left(&[1, 3, 6]);
        comparison.reached(&format!("{}, refusals that left NaNs as they were", entry.name()), &left);
    }
    let at_null = |case: &Case| null_if_empty(|| difference(case, &expected(case), false));
    let name = format!("{}, NULL for each empty list", entry.name());
    comparison.kind(&name, emptied(random, entry).into_iter(), at_null, smaller);
    comparison.reached(&format!("{}, lists that were NULL", entry.name()), &nulls()[..1 + entry.written()]);
    let inputs: Vec<Case> = (0..asked.size(2_000, 50_000).max(200)).map(|_| overlapping(random, entry)).collect();
    let name = format!("{}, lists to be read that share memory", entry.name());
    let shared = Cell::new(0);
    comparison.kind(&name, inputs.into_iter(), |case| of_shared(case, &shared), smaller);
    comparison.reached(&format!("{}, lists that shared memory", entry.name()), &[("two or more", shared.get())]);
}

/// The last digit of the answer, or of its first number, is turned.
pub fn planted(entry: Entry, comparison: &mut Comparison, random: &mut Random) {
    let inputs: Vec<Case> = (0..100).map(|_| any(random, entry, 12)).collect();
    let difference = |case: &Case| difference(case, &expected(case), true);
    comparison.kind(&format!("{}, planted", entry.name()), inputs.into_iter(), difference, smaller);
}

/// The refusal number that docs/RULES.md gives; 0 where there is none.
fn refusal(case: &Case) -> u32 {
    let nodes = case.read[0].len();
    let answered = case.entry == Entry::Extrapolated && case.length != nodes;
    match case {
        _ if nodes > 65_536 => 1,
        _ if case.read.iter().any(|vector| vector.len() != nodes) || answered => 3,
        _ if alpha_refused(case.alpha) => 6,
        _ => 0,
    }
}

/// What the call is to come to.
fn expected(case: &Case) -> Outcome {
    match (refusal(case), case.entry) {
        (0, Entry::Extrapolated) => {
            Outcome::Done { returned: Returned::Number(0), answer: vec![Contents::Real(extrapolated(case))] }
        }
        (0, Entry::Combined) => {
            let returned = Returned::Scored(Scored { refusal: 0, score: combined(case) });
            Outcome::Done { returned, answer: Vec::new() }
        }
        (number, _) => Outcome::Refused(number),
    }
}

/// What differs from the expected outcome, if anything; where it is `planted`, a digit is turned before.
pub fn difference(case: &Case, expected: &Outcome, planted: bool) -> Option<String> {
    let read: Vec<Part<f64>> = case.read.iter().map(|vector| Part::own(vector)).collect();
    reading(case, &read, expected, planted)
}

/// In lists by themselves, and in lists that share memory, which is counted.
fn of_shared(case: &Case, shared: &Cell<u64>) -> Option<String> {
    let mut memory = Memory::default();
    case.read.iter().for_each(|vector| memory.put(vector));
    let overlap = (1..case.read.len()).any(|list| (0..list).any(|other| memory.overlap(list, other)));
    shared.set(shared.get() + u64::from(overlap));
    let made = memory.made();
    let read: Vec<Part<f64>> = (0..case.read.len()).map(|list| made.part(list)).collect();
    let expected = expected(case);
    difference(case, &expected, false).or_else(|| reading(case, &read, &expected, false))
}

fn reading(case: &Case, read: &[Part<f64>], expected: &Outcome, planted: bool) -> Option<String> {
    let name = case.entry.name();
    let mut written: Vec<Buffer> = (0..case.entry.written()).map(|_| Buffer::patterned(Kind::Real, case.length)).collect();
    let mut returned = made(case, read, Lending(&mut written.iter_mut().map(Buffer::lend)));
    if planted {
        written.iter_mut().for_each(Buffer::spoil);
        if let Returned::Scored(scored) = &mut returned {
            scored.score = turned(scored.score);
        }
    }
    let mut lent = read.iter().zip(&case.read);
    if lent.any(|(lent, contents)| lent.altered(contents)) {
        return Some(format!("{name} has written to a list that it was lent to read"));
    }
    let right = match expected {
        Outcome::Refused(number) => case.entry.refused(*number),
        Outcome::Done { returned, .. } => *returned,
    };
    if let Some(unlike) = returned.unlike(right, name) {
        return Some(unlike);
    }
    let mut buffers = written.iter().enumerate();
    let found = buffers.find_map(|(place, buffer)| buffer.difference(expected, place));
    note_refusal(expected, &written);
    found.map(|found| format!("{name} returns {returned:?}, but solution{found}"))
}

/// Makes the call.
fn made(case: &Case, read: &[Part<f64>], mut written: Lending) -> Returned {
    let read: Vec<&[f64]> = read.iter().map(Part::slice).collect();
    match (case.entry, &read[..]) {
        (Entry::Extrapolated, [estimate, residual]) => {
            Returned::Number(entries::extrapolated_solution(estimate, residual, case.alpha, written.reals()))
        }
        (Entry::Combined, [estimate, residual, forward_estimate, forward_residual]) => Returned::Scored(
            entries::combine_with_forward(estimate, residual, forward_estimate, forward_residual, case.alpha),
        ),
        _ => unreachable!("the vectors are made for the entry"),
    }
}

/// What the Rust gives: it reads alpha and the vectors.
fn extrapolated(case: &Case) -> Vec<f64> {
    let config = ForwardPushConfig { alpha: case.alpha, ..Default::default() };
    let [estimate, residual] = [0, 1].map(|place| case.read[place].clone());
    let result = ForwardPushResult { estimate, residual, push_count: 0, nodes_visited: 0, residual_norm: 0.0 };
    ForwardPushSolver::new(PushGraph::from_edges(0, &[]), config).extrapolated_solution(&result)
}

fn combined(case: &Case) -> f64 {
    let config = BackwardPushConfig { alpha: case.alpha, ..Default::default() };
    let [estimate, residual] = [0, 1].map(|place| case.read[place].clone());
    let result = BackwardPushResult { estimate, residual, push_count: 0, nodes_visited: 0, residual_norm: 0.0 };
    let solver = BackwardPushSolver::new(PushGraph::from_edges(0, &[]), config);
    solver.combine_with_forward(&result, &case.read[2], &case.read[3])
}

/// Vectors of up to so many numbers: any pattern, specials among them, or numbers close to 1.
fn any(random: &mut Random, entry: Entry, most: u64) -> Case {
    let size = random.below(most + 1) as usize;
    of_size(random, entry, size)
}

fn of_size(random: &mut Random, entry: Entry, size: usize) -> Case {
    let patterns = random.below(2) == 0;
    // One special makes a sum infinite or a NaN, whatever the others are: so in half of the calls there is none.
    let specials = random.below(2) == 0;
    let mut number = || {
        // Of either sign, quiet or signalling.
        let nan = f64::from_bits(random.next() | 0x7ff0_0000_0000_0001);
        let special = random.one_of(&[0.0, -0.0, 5e-324, -1.0, f64::MAX, f64::INFINITY, f64::NEG_INFINITY, nan]);
        match random.below(4) {
            0 if specials => special,
            0 => random.one_of(&[0.0, -0.0, 5e-324, -f64::MIN_POSITIVE, -1.0]),
            _ if patterns => f64::from_bits(random.next()),
            _ => random.unit(),
        }
    };
    let read = (0..entry.vectors()).map(|_| (0..size).map(|_| number()).collect()).collect();
    let unit = random.unit();
    Case { entry, read, alpha: random.one_of(&[0.0, -0.0, 0.15, 0.5, 1.0, unit]), length: size }
}

/// Every length that is one off, and each two, with an alpha that passes and with one that does not.
fn lengths(random: &mut Random, entry: Entry) -> Vec<Case> {
    let mut found = Vec::new();
    let lists = (entry.vectors() + entry.written()) as u32;
    for size in [1, 2, 7] {
        for place in 0..3usize.pow(lists) {
            for alpha in [0.15, 1.5, f64::NAN] {
                let length = |list: usize| size + place / 3usize.pow(list as u32) % 3 - 1;
                let mut case = Case { alpha, ..of_size(random, entry, size) };
                case.read.iter_mut().enumerate().for_each(|(list, vector)| vector.resize(length(list), 0.5));
                case.length = length(case.read.len());
                found.push(case);
            }
        }
    }
    found
}

/// No numbers at all, and each choice of lists that are empty where others are not.
fn emptied(random: &mut Random, entry: Entry) -> Vec<Case> {
    let mut found = Vec::new();
    let lists = entry.vectors() + entry.written();
    for size in [0, 1, 3, MOST_NODES as usize + 1] {
        let numbers = of_size(random, entry, size);
        for empty in 1..1usize << lists {
            for alpha in [0.0, 0.15, 1.0, 1.5, f64::NAN].into_iter().take(if size > 3 { 1 } else { 5 }) {
                let mut case = Case { alpha, ..numbers.clone() };
                let is_empty = |list: usize| empty >> list & 1 == 1;
                case.read.iter_mut().enumerate().filter(|(list, _)| is_empty(*list)).for_each(|(_, vector)| vector.clear());
                if is_empty(entry.vectors()) {
                    case.length = 0;
                }
                found.push(case);
            }
        }
    }
    found
}

/// Each vector a stretch of the same few numbers.
fn overlapping(random: &mut Random, entry: Entry) -> Case {
    let size = random.below(6) as usize;
    let more = random.below(4) as usize;
    let mut case = of_size(random, entry, size + more);
    let numbers = case.read[0].clone();
    for vector in &mut case.read {
        let first = random.below((numbers.len() - size) as u64 + 1) as usize;
        *vector = numbers[first..first + size].to_vec();
    }
    // Now and then one list is longer than the others.
    if random.below(8) == 0 {
        let longer = random.below(entry.vectors() as u64) as usize;
        case.read[longer] = numbers;
    }
    Case { length: size, ..case }
}

/// A size at a limit: sound, and each way to be refused besides.
fn around(random: &mut Random, entry: Entry, size: usize) -> Vec<Case> {
    let sound = of_size(random, entry, size);
    let mut found = vec![Case { alpha: -1.0, ..sound.clone() }, Case { length: size + 1, ..sound.clone() }];
    for list in 1..entry.vectors() {
        let mut longer = sound.clone();
        longer.read[list].push(0.0);
        found.push(longer);
    }
    found.push(sound);
    found
}

fn smaller(case: &Case) -> Vec<Case> {
    let without = |place: usize| {
        let mut less = case.clone();
        let remove = |list: &mut Vec<f64>| list.drain(place..(place + 1).min(list.len())).count();
        let removed = less.read.iter_mut().map(remove).max().unwrap_or(0);
        less.length = less.length.saturating_sub(removed);
        less
    };
    let shortest = case.read.iter().map(Vec::len).min().unwrap_or(0);
    (0..shortest).map(without).collect()
}
