//! Small graphs, settings, sources and targets, drawn so that each kind that the push rules tell apart comes often.
use super::recorded::Recorded;
use runs::calls::call::Wish;
use runs::calls::entry::{Entry, Question, Solver, Task};
use runs::entries::Settings;
use runs::random::Random;
use runs::recorded::layout::{LINKS, NODES};

/// A node, and one time in 16 a number that is none.
fn node(random: &mut Random, n: u32) -> u32 {
    if n == 0 || random.below(16) == 0 {
        return random.one_of(&[n, n + 1, n + 63, 65_535]);
    }
    random.below(u64::from(n)) as u32
}

/// How the weights of one list are drawn.
#[derive(Clone, Copy)]
enum Weights {
    Ones,
    Tenths,
    Units,
    Specials,
    SpecialsAmongUnits,
    EverySize,
}

const WEIGHTS: [Weights; 7] = [
    Weights::Ones,
    Weights::Ones,
    Weights::Tenths,
    Weights::Units,
    Weights::Specials,
    Weights::SpecialsAmongUnits,
    Weights::EverySize,
];

fn special(random: &mut Random) -> f64 {
    let subnormal = f64::from_bits(random.next() >> 12);
    random.one_of(&[0.0, 0.0, -0.0, 5e-324, subnormal, f64::MIN_POSITIVE, 1_048_575.9999999999, 1_048_576.0])
}

impl Weights {
    fn draw(self, random: &mut Random) -> f64 {
        match self {
            Weights::Ones => 1.0,
            Weights::Tenths => (1 + random.below(20)) as f64 / 10.0,
            Weights::Specials => special(random),
            Weights::SpecialsAmongUnits if random.below(3) == 0 => special(random),
            Weights::Units | Weights::SpecialsAmongUnits => random.unit(),
            Weights::EverySize => f64::from_bits(random.below(1_048_576f64.to_bits())),
        }
    }
}

/// The ends of the links of a graph with a plan.
fn planned(random: &mut Random, n: u32) -> Vec<(u32, u32)> {
    let all = || 0..n;
    match random.below(8) {
        0 => all().map(|v| (0, v)).collect(),
        1 => all().map(|v| (v, 0)).collect(),
        2 => all().skip(1).map(|v| (v - 1, v)).collect(),
        3 => all().map(|v| (v, (v + 1) % n)).collect(),
        4 => all().flat_map(|v| [(v, n / 2), (n / 2, v)]).collect(),
        5 => all().map(|v| (v, v)).collect(),
        6 => all().map(|_| (n - 1, 0)).collect(),
        _ => all().take(4).flat_map(|v| all().take(4).map(move |u| (v, u))).collect(),
    }
}

/// The ends of random links: repeats and links to oneself are common where few nodes are drawn from.
fn unplanned(random: &mut Random, n: u32) -> Vec<(u32, u32)> {
    let drawn = 1 + random.below(u64::from(n.max(1))) as u32;
    let whole = random.below(2) == 0;
    let end = |random: &mut Random| if whole { node(random, n) } else { random.below(u64::from(drawn)) as u32 };
    (0..random.below(LINKS as u64 + 1)).map(|_| (end(random), end(random))).collect()
}

pub fn links(random: &mut Random, n: u32) -> Vec<(u32, u32, f64)> {
    let mut ends = if n > 0 && random.below(3) == 0 { planned(random, n) } else { unplanned(random, n) };
    ends.truncate(LINKS);
    let weights = random.one_of(&WEIGHTS);
    ends.into_iter().map(|(from, to)| (from, to, weights.draw(random))).collect()
}

/// Settings of several kinds: by which a solve comes far, by which residuals meet epsilon and the threshold exactly, by
/// which nothing but zeros is left to move, and any that are sound.
pub fn settings(random: &mut Random) -> Settings {
    let (unit, adaptive_threshold) = (random.unit(), random.below(2) == 0);
    let (alpha, epsilon, queue_threshold, max_pushes) = match random.below(5) {
        0 | 1 => (
            random.one_of(&[0.01, 0.15, 0.15, 0.5, unit]),
            random.one_of(&[0.0, 1e-9, 1e-6, 1e-3]),
            random.one_of(&[0.0, 1e-12, 1e-8, 1e-6, 1e-3]),
            random.one_of(&[7, 20, 40, 80, 160, 320]),
        ),
        2 => (
            0.5,
            random.one_of(&[0.5, 0.25, 0.125, 0.0625]),
            random.one_of(&[0.0, 0.25, 0.125, 0.0625]),
            random.one_of(&[2, 3, 20]),
        ),
        3 => (
            random.one_of(&[0.0, -0.0, 1.0, 1.0]),
            random.one_of(&[0.0, -0.0]),
            random.one_of(&[0.0, -0.0]),
            random.one_of(&[3, 20, 50]),
        ),
        _ => (
            random.one_of(&[0.0, -0.0, 5e-324, 1e-3, unit, 0.85, 1.0]),
            random.one_of(&[0.0, -0.0, 1e-310, 0.01, 0.1 * unit, 0.25, 0.75]),
            random.one_of(&[0.0, -0.0, 5e-324, 0.01, 0.1 * unit, 0.25, 1.0, 2.0]),
            random.one_of(&[0, 1, 2, 3, 50, 640]),
        ),
    };
    Settings { alpha, epsilon, queue_threshold, max_pushes, adaptive_threshold, ..Settings::DEFAULT }
}

/// An end of a link, and one time in 4 any node.
fn end(random: &mut Random, n: u32, links: &[(u32, u32, f64)], which: impl Fn(&(u32, u32, f64)) -> u32) -> u32 {
    if links.is_empty() || random.below(4) == 0 {
        return node(random, n);
    }
    which(&random.one_of(links))
}

/// Whether the entry begins at its target.
fn starts_at_target(entry: Entry) -> bool {
    matches!(entry, Entry::Solve(Question { solver: Solver::Backward, .. }, _))
}

/// A sound call of a solve: of a graph of no nodes now and then, and most often of several.
pub fn solve(random: &mut Random, entry: Entry) -> Recorded {
    let n = if random.below(20) == 0 { 0 } else { 1 + random.below(NODES as u64) as u32 };
    let links = links(random, n);
    let first = settings(random);
    let source = end(random, n, &links, |link| link.0);
    let target = if random.below(4) == 0 { source } else { end(random, n, &links, |link| link.1) };
    let count = if entry.task() == Some(Task::Multi) { random.below(9) } else { 0 };
    let start = |link: &(u32, u32, f64)| if starts_at_target(entry) { link.1 } else { link.0 };
    let many: Vec<u32> = (0..count).map(|_| end(random, n, &links, start)).collect();
    let precision = if entry.task() == Some(Task::Watched) {
        random.one_of(&[0.0, -0.0, 5e-324, 1e-9, 1e-6, 1e-3, 0.05, 0.125, 0.25, 0.5, 2.0])
    } else {
        0.0
    };
    let backward_settings = if entry.pushes_both_ways() { settings(random) } else { first };
    Recorded::on_links(entry, n, &links, Wish { source, target, many, precision, settings: first, backward_settings })
}

/// Another solve of the same graph and wish, which takes it in the same form.
pub fn other(solve: &Recorded, entry: Entry) -> Recorded {
    let mut call = solve.call.clone();
    call.entry = entry;
    Recorded { call: call.with_stated_lengths(), read: solve.read }
}

/// The source and the target of a solve that begins at `start`.
fn ends(entry: Entry, start: u32, other: u32) -> (u32, u32) {
    if starts_at_target(entry) {
        (other, start)
    } else {
        (start, other)
    }
}

/// A sound solve along a chain that watches a node of it: the precision is what the node's estimate becomes at its push,
/// where the solve goes on, or half of it, where it stops.
pub fn watched(random: &mut Random, entry: Entry) -> Recorded {
    let n = 2 + random.below(8) as u32;
    let links: Vec<_> = (1..n).map(|v| (v - 1, v, 1.0)).collect();
    let settings = Settings {
        alpha: 0.5,
        epsilon: 0.0,
        max_pushes: 20,
        queue_threshold: random.one_of(&[0.0, 1e-6]),
        adaptive_threshold: false,
        ..Settings::DEFAULT
    };
    let steps = random.below(u64::from(n) - 1) as u32;
    let precision = random.one_of(&[1.0, 0.5]) / f64::from(2u32 << steps);
    let (source, target) = if starts_at_target(entry) { (n - 1 - steps, n - 1) } else { (0, steps) };
    let wish = Wish { source, target, many: Vec::new(), precision, settings, backward_settings: settings };
    Recorded::on_links(entry, n, &links, wish)
}

/// A sound solve up to the thousandth push or the second thousandth, where the threshold falls if it adapts. Along a ring
/// the residual shrinks by the same factor at each push, so a threshold can be set just below or above what is left there.
pub fn long(random: &mut Random, entry: Entry, adaptive: bool) -> Recorded {
    let n = 1 + random.below(6) as u32;
    let links: Vec<_> = (0..n).map(|v| (v, (v + 1) % n, 1.0)).collect();
    let alpha = 1e-3 * (0.5 + random.unit());
    let near = random.one_of(&[0.9999, 0.9999, 1.0001]);
    let left = |pushes: u32| (0..pushes).fold(near, |left, _| left * (1.0 - alpha));
    let threshold = random.one_of(&[left(1_000), left(1_000), left(2_000), left(2_000) / 0.9]);
    let settings = Settings {
        alpha,
        epsilon: 0.0,
        max_pushes: 2_500,
        queue_threshold: threshold,
        adaptive_threshold: adaptive,
        ..Settings::DEFAULT
    };
    let (start, other) = (random.below(u64::from(n)) as u32, random.below(u64::from(n)) as u32);
    let (source, target) = ends(entry, start, other);
    let precision = random.one_of(&[1e-3, 1.0]);
    let wish = Wish { source, target, many: vec![start], precision, settings, backward_settings: settings };
    Recorded::on_links(entry, n, &links, wish)
}

/// A threshold at the floor below which it does not adapt, and the next one up, with a residual that meets it at the
/// thousandth push.
pub fn floor(entry: Entry, threshold: f64) -> Recorded {
    let settings = Settings {
        alpha: 0.02725,
        epsilon: 0.0,
        max_pushes: 2_500,
        queue_threshold: threshold,
        adaptive_threshold: true,
        ..Settings::DEFAULT
    };
    let many = vec![0];
    let wish = Wish { source: 0, target: 0, many, precision: 2.0, settings, backward_settings: settings };
    Recorded::on_links(entry, 1, &[(0, 0, 1.0)], wish)
}
