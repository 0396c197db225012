//! Solves with other adaptive numbers than the default ones: steps of few pushes and of more than there are, sizes about that of the
//! queue, and factors and floors by which a threshold turns to zero, to infinity and to NaN. Where a call has two records, these have
//! different numbers.
use super::adaptive::Layout;
use crate::calls::{lists, wishes};
use extended::adaptions;
use runs::calls::call::{adaptive_numbers, Call, Wish};
use runs::calls::entry::{Solver, Task};
use runs::calls::extended::Theirs;
use runs::calls::given::graph;
use runs::entries::Settings;
use runs::random::Random;

/// Below 1 and above it, and so far above that two of them are past every number.
const FACTORS: [f64; 6] = [0.0, -0.0, 0.5, 2.0, 1e300, f64::MAX];

/// The nodes between a first one and a last one in the graphs of `queues`: all of them wait at a time.
const BETWEEN: u32 = 6;

/// Settings by which a threshold adapts, of a few numbers each, all of them: thresholds that a residual of a small graph reaches, and
/// floors below them, between and above.
pub fn grid() -> Vec<Settings> {
    const SIZES: [(u32, u32); 6] = [(0, 0), (1, 0), (1, 1), (2, 2), (3, 1), (u32::MAX, u32::MAX)];
    let base = Settings { alpha: 0.1, epsilon: 0.0, max_pushes: 47, ..Settings::DEFAULT };
    let mut found = Vec::new();
    for adaptive_step in [1, 2, 7, 1_000, u64::MAX] {
        for (upper_size, lower_size) in SIZES {
            for threshold_floor in [0.0, 0.05, 1.0] {
                for queue_threshold in [0.01, 0.2] {
                    let sized = Settings { adaptive_step, upper_size, lower_size, threshold_floor, ..base };
                    found.extend(with_factors(Settings { queue_threshold, ..sized }));
                }
            }
        }
    }
    found
}

/// Each two sizes up to the number of nodes, with small steps.
fn sizes() -> Vec<Settings> {
    let base = Settings { alpha: 0.3, epsilon: 0.0, queue_threshold: 0.02, max_pushes: 60, ..Settings::DEFAULT };
    let mut found = Vec::new();
    for adaptive_step in 1..=3 {
        for upper_size in 0..=BETWEEN + 2 {
            for lower_size in 0..=upper_size {
                for threshold_floor in [0.0, 1.0] {
                    let sized = Settings { adaptive_step, upper_size, lower_size, threshold_floor, ..base };
                    found.extend(with_factors(sized));
                }
            }
        }
    }
    found
}

/// The settings with each two factors.
fn with_factors(settings: Settings) -> impl Iterator<Item = Settings> {
    let two = FACTORS.into_iter().flat_map(|raising| FACTORS.map(|lowering| (raising, lowering)));
    two.map(move |(raising_factor, lowering_factor)| Settings { raising_factor, lowering_factor, ..settings })
}

/// The settings at this place of a grid, and others for a second record.
pub fn pair(random: &mut Random, grid: &[Settings], place: usize) -> [Settings; 2] {
    let further = 1 + random.below(grid.len() as u64 - 1) as usize;
    [grid[place], grid[(place + further) % grid.len()]]
}

/// Settings that are drawn, with other adaptive numbers than these.
fn unlike(first: &Settings, mut draw: impl FnMut() -> Settings) -> Settings {
    loop {
        let second = draw();
        if adaptive_numbers(&second) != adaptive_numbers(first) {
            return second;
        }
    }
}

/// Solves of one solver.
#[derive(Clone, Copy)]
pub struct Numbers(pub Solver);

impl Numbers {
    /// Solves of two small graphs with so many settings: the first node has a link to each of some nodes, and these have none, or one
    /// each to the last node.
    pub fn queues(self, random: &mut Random, count: u64) -> Vec<Call> {
        let all = sizes();
        // Steps of 1,001 come to each place, since no prime number divides both.
        let places = (0..all.len()).cycle().step_by(1_001).take(count as usize);
        let both = places.flat_map(|place| [(place, false), (place, true)]);
        both.map(|(place, to_the_last)| self.queue(pair(random, &all, place), to_the_last)).collect()
    }

    fn queue(self, [settings, backward_settings]: [Settings; 2], to_the_last: bool) -> Call {
        let (first, last) = (0, BETWEEN + 1);
        // The weights add up to 1, so that either way each node gets its share.
        let weight = |node: u32| f64::from(2 * node) / f64::from(BETWEEN * (BETWEEN + 1));
        let mut links: Vec<_> = (1..last).map(|node| (first, node, weight(node))).collect();
        if to_the_last {
            links.extend((1..last).map(|node| (node, last, weight(node))));
        }
        let many = (first..=last).collect();
        let wish = Wish { many, precision: 0.2, settings, backward_settings, ..Wish::default() };
        Layout(self.0).solve(last + 1, links, wish, last)
    }

    /// So many solves of random graphs, with numbers that are drawn and sizes about that of the queue at the first step; and how many
    /// of them leave another residual than with the default numbers.
    pub fn drawn(self, random: &mut Random, nodes: u32, links: usize, count: u64) -> (Vec<Call>, u64) {
        let found: Vec<Call> = (0..count).map(|number| self.random(random, nodes, links, number % 3 == 0)).collect();
        let unlike = found.iter().filter(|call| {
            let Settings { alpha, epsilon, queue_threshold, max_pushes, .. } = call.wish.settings;
            let usual = Settings { alpha, epsilon, queue_threshold, max_pushes, ..Settings::DEFAULT };
            self.residual(call, call.wish.settings) != self.residual(call, usual)
        });
        let unlike = unlike.count() as u64;
        (found, unlike)
    }

    fn random(self, random: &mut Random, nodes: u32, links: usize, whole: bool) -> Call {
        let call = lists::random(random, nodes, links, whole).solving(self.0.first_question());
        let settings = [adapting(random), adapting(random)];
        let wish = wishes::with_settings(random, &call, settings);
        let call = call.wishing(wish);
        let settings = numbered(random, &call, self.way(), call.wish.settings);
        let second = || numbered(random, &call, Solver::Backward, call.wish.backward_settings);
        let backward_settings = unlike(&settings, second);
        call.clone().wishing(Wish { settings, backward_settings, ..call.wish })
    }

    /// So many solves whose queues have more than 10,000 nodes, with steps and sizes of that order.
    pub fn long(self, random: &mut Random, count: u64) -> Vec<Call> {
        (0..count).map(|_| self.long_queue(random)).collect()
    }

    fn long_queue(self, random: &mut Random) -> Call {
        let call = Layout(self.0).star(random);
        let threshold = call.wish.settings.queue_threshold;
        let mut draw = || Settings {
            adaptive_step: random.one_of(&[100, 500, 2_500]),
            upper_size: random.one_of(&[1_000, 9_000, 20_000]),
            lower_size: random.one_of(&[10, 1_000]),
            raising_factor: 1.0 + 0.2 * random.unit(),
            lowering_factor: 0.5 + 0.5 * random.unit(),
            threshold_floor: random.one_of(&[0.0, threshold / 2.0, threshold]),
            ..call.wish.settings
        };
        let settings = draw();
        let backward_settings = unlike(&settings, draw);
        call.clone().wishing(Wish { settings, backward_settings, ..call.wish })
    }

    /// The way that is looked at.
    fn way(self) -> Solver {
        if self.0 == Solver::Backward {
            Solver::Backward
        } else {
            Solver::Forward
        }
    }

    /// What the Rust's solve of the call with these settings leaves.
    fn residual(self, call: &Call, settings: Settings) -> Vec<f64> {
        let wish = Wish { settings, ..call.wish.clone() };
        Theirs::new(self.way(), graph(call), &wish).solved(&wish, Task::Single).residual
    }
}

/// Settings of a threshold that adapts, by which a solve comes to many steps as often as to few.
fn adapting(random: &mut Random) -> Settings {
    let unit = random.unit();
    Settings {
        alpha: random.one_of(&[0.01, 0.05, 0.15, 0.5]),
        epsilon: random.one_of(&[0.0, 0.0, 1e-6, 1e-3 * unit]),
        queue_threshold: random.one_of(&[0.0, 1e-8, 1e-3 * unit, 0.01, 0.01, 0.1 * unit]),
        max_pushes: random.one_of(&[10, 47, 300, 300, 3_000]),
        ..Settings::DEFAULT
    }
}

/// The settings with numbers that are drawn, and sizes about that of the queue at the first step of a solve one way.
fn numbered(random: &mut Random, call: &Call, way: Solver, settings: Settings) -> Settings {
    let settings = wishes::with_numbers(random, settings, 3);
    match queue_at_first_step(call, way, settings) {
        Some(size) => wishes::with_sizes(random, settings, size),
        None => settings,
    }
}

/// How many nodes wait at the first step of the Rust's solve one way, if it comes so far.
fn queue_at_first_step(call: &Call, way: Solver, settings: Settings) -> Option<u32> {
    if settings.adaptive_step > settings.max_pushes {
        return None;
    }
    let settings = Settings { max_pushes: settings.adaptive_step, ..settings };
    let wish = Wish { settings, ..call.wish.clone() };
    let before = adaptions::all();
    Theirs::new(way, graph(call), &wish).solved(&wish, Task::Single);
    (adaptions::all() > before).then(|| adaptions::last_size() as u32)
}
