//! What a solve, or a search for a link, is given beside its graph: at the limits, a few values of each, or drawn.
use super::sound::{sound, MOST_PUSHES};
use runs::calls::call::{Call, Wish};
use runs::calls::entry::{Entry, Task};
use runs::calls::refusal::refusal;
use runs::entries::Settings;
use runs::random::Random;

/// Every alpha at a limit or next to one, and every kind that is refused.
pub const ALPHAS: [f64; 18] = [
    0.0,
    -0.0,
    5e-324,
    -5e-324,
    -f64::MIN_POSITIVE,
    0.15,
    0.9999999999999999,
    1.0,
    1.0000000000000002,
    2.0,
    -1.0,
    f64::MAX,
    f64::MIN,
    f64::INFINITY,
    f64::NEG_INFINITY,
    f64::NAN,
    f64::from_bits(0x7ff0_0000_0000_0001),
    f64::from_bits(0xfff8_0000_0000_0000),
];

/// Likewise every epsilon, threshold and precision.
const NUMBERS: [f64; 15] = [
    0.0,
    -0.0,
    5e-324,
    -5e-324,
    f64::MIN_POSITIVE,
    -f64::MIN_POSITIVE,
    1.0,
    -1.0,
    f64::MAX,
    f64::MIN,
    f64::INFINITY,
    f64::NEG_INFINITY,
    f64::NAN,
    f64::from_bits(0x7ff0_0000_0000_0001),
    f64::from_bits(0xfff8_0000_0000_0000),
];

const PUSHES: [u64; 10] =
    [0, 1, 2, MOST_PUSHES - 1, MOST_PUSHES, MOST_PUSHES + 1, u32::MAX as u64, 1 << 32, 1 << 63, u64::MAX];

const STEPS: [u64; 4] = [0, 1, 2, u64::MAX];

/// Upper and lower sizes, equal and on both sides of that.
const SIZES: [(u32, u32); 8] =
    [(0, 0), (1, 0), (0, 1), (100, 100), (99, 100), (u32::MAX, u32::MAX), (u32::MAX, 0), (u32::MAX - 1, u32::MAX)];

/// Factors and floors: one of each kind that passes, next to a limit or far from it, and of each that is refused.
const AMOUNTS: [f64; 9] = [0.0, -0.0, 5e-324, -5e-324, -1.0, f64::MAX, f64::INFINITY, f64::NEG_INFINITY, f64::NAN];

/// One of the settings records of a wish.
pub type SettingsOf = fn(&mut Wish) -> &mut Settings;

/// Those that the entry takes.
pub fn records(entry: Entry) -> Vec<SettingsOf> {
    let (first, second): (SettingsOf, SettingsOf) = (|wish| &mut wish.settings, |wish| &mut wish.backward_settings);
    match entry.task() {
        None => Vec::new(),
        Some(_) if entry.pushes_both_ways() => vec![first, second],
        Some(_) => vec![first],
    }
}

/// What changes one part of a wish.
type Change = Box<dyn Fn(&mut Wish)>;

fn changes<T: Copy + 'static>(values: &[T], act: impl Fn(&mut Wish, T) + Copy + 'static) -> Vec<Change> {
    values.iter().map(|&value| Box::new(move |wish: &mut Wish| act(wish, value)) as Change).collect()
}

/// Every number at a limit, in each place of the small call and in each two.
pub fn limits(entry: Entry) -> Vec<Call> {
    let mut parts: Vec<Vec<Change>> = Vec::new();
    for record in records(entry) {
        parts.push(changes(&ALPHAS, move |wish, alpha| record(wish).alpha = alpha));
        parts.push(changes(&NUMBERS, move |wish, number| record(wish).epsilon = number));
        parts.push(changes(&NUMBERS, move |wish, number| record(wish).queue_threshold = number));
        parts.push(changes(&PUSHES, move |wish, pushes| record(wish).max_pushes = pushes));
        parts.push(changes(&[true], move |wish, adaptive| record(wish).adaptive_threshold = adaptive));
        parts.push(changes(&STEPS, move |wish, step| record(wish).adaptive_step = step));
        parts.push(changes(&SIZES, move |wish, (upper, lower)| {
            (record(wish).upper_size, record(wish).lower_size) = (upper, lower);
        }));
        parts.push(changes(&AMOUNTS, move |wish, factor| record(wish).raising_factor = factor));
        parts.push(changes(&AMOUNTS, move |wish, factor| record(wish).lowering_factor = factor));
        parts.push(changes(&AMOUNTS, move |wish, floor| record(wish).threshold_floor = floor));
    }
    if entry.task() == Some(Task::Watched) {
        parts.push(changes(&NUMBERS, |wish, number| wish.precision = number));
    }
    let mut found = Vec::new();
    for (place, part) in parts.iter().enumerate() {
        for change in part {
            found.push(changed(entry, &[change]));
            let others = parts[place + 1..].iter().flatten();
            found.extend(others.map(|other| changed(entry, &[change, other])));
        }
    }
    found.retain(ends);
    found
}

fn changed(entry: Entry, changes: &[&Change]) -> Call {
    let mut call = sound(entry);
    changes.iter().for_each(|change| change(&mut call.wish));
    call
}

/// Whether the call is over soon: a thousand million pushes are too many where alpha takes nothing.
fn ends(call: &Call) -> bool {
    let soon = |settings: &Settings| settings.max_pushes <= 10_000 || settings.alpha >= 0.1;
    refusal(call) != 0 || records(call.entry).iter().all(|record| soon(record(&mut call.wish.clone())))
}

/// Settings of a few values each, all of them, with the default adaptive numbers.
pub fn grid() -> Vec<Settings> {
    let mut found = Vec::new();
    for alpha in [0.0, -0.0, 0.15, 0.5, 1.0] {
        for epsilon in [0.0, 1e-6, 0.25] {
            for queue_threshold in [0.0, 1e-8, 0.25, 2.0] {
                for max_pushes in [0, 1, 2, 10, 47] {
                    for adaptive_threshold in [false, true] {
                        found.push(Settings {
                            alpha,
                            epsilon,
                            queue_threshold,
                            max_pushes,
                            adaptive_threshold,
                            ..Settings::DEFAULT
                        });
                    }
                }
            }
        }
    }
    found
}

/// The call as it is, and where it is a search, also searches that find nothing in the small sound call: in an empty row, from no
/// node, to no node. Rows are tested whatever is asked of them.
pub fn each_link(call: Call) -> Vec<Call> {
    if !call.entry.searches() {
        return vec![call];
    }
    let absent = [(1, 2), (call.nodes, 0), (0, call.nodes)];
    let asking = |(source, target)| Call { wish: Wish { source, target, ..call.wish.clone() }, ..call.clone() };
    [call.clone()].into_iter().chain(absent.map(asking)).collect()
}

/// The next number up from one that is not below zero.
pub fn next_up(number: f64) -> f64 {
    f64::from_bits(number.to_bits() + 1)
}

/// The next number down, or zero.
pub fn next_down(number: f64) -> f64 {
    f64::from_bits(number.to_bits().saturating_sub(1))
}

/// A wish for the graph of the call, of any settings.
pub fn drawn(random: &mut Random, call: &Call) -> Wish {
    let settings = [settings(random), settings(random)];
    with_settings(random, call, settings)
}

/// A wish for the graph of the call, with these settings; as many pushes as do not take too long.
pub fn with_settings(random: &mut Random, call: &Call, settings: [Settings; 2]) -> Wish {
    const STEPS: u64 = 4_000_000;
    let most = STEPS / longest_row(call).max(1);
    let [settings, backward_settings] =
        settings.map(|settings| Settings { max_pushes: settings.max_pushes.min(most), ..settings });
    let (ten, hundred) = (random.below(10), random.below(100));
    let many = random.one_of(&[0, 1, 2, 3, ten, hundred]);
    let unit = random.unit();
    let (source, other) = (node(random, call), node(random, call));
    Wish {
        source,
        target: if random.below(8) == 0 { source } else { other },
        many: (0..many).map(|_| node(random, call)).collect(),
        precision: random.one_of(&[0.0, -0.0, 5e-324, 1e-9, 1e-3 * unit, 0.1 * unit, unit, 1.0, f64::MAX]),
        settings,
        backward_settings,
    }
}

fn settings(random: &mut Random) -> Settings {
    let unit = random.unit();
    let (hundred, thousands) = (random.below(100), random.below(5_000));
    let few = random.one_of(&[0, 1, 2, 10, hundred]);
    let many = random.one_of(&[999, 1_000, 1_001, 1_999, 2_000, 2_001, thousands]);
    let settings = Settings {
        alpha: random.one_of(&[0.0, -0.0, 0.15, 0.15, 0.5, unit, 0.01 * unit, 1.0]),
        epsilon: random.one_of(&[0.0, 0.0, -0.0, 1e-300, 1e-6, 1e-3 * unit, 0.25]),
        queue_threshold: random.one_of(&[0.0, 0.0, -0.0, 1e-300, 1e-8, 1e-5, 1e-3 * unit, 0.25, 2.0]),
        max_pushes: if random.below(8) == 0 { many } else { few },
        adaptive_threshold: random.below(2) == 0,
        ..Settings::DEFAULT
    };
    // One in four has other adaptive numbers.
    if random.below(4) > 0 {
        return settings;
    }
    let size = random.one_of(&[1, 3, 30, 300]);
    with_numbers(random, settings, size)
}

/// The settings with adaptive numbers that are drawn, and sizes about this one.
pub fn with_numbers(random: &mut Random, settings: Settings, size: u32) -> Settings {
    let (pushes, threshold) = (settings.max_pushes, settings.queue_threshold);
    let unit = random.unit();
    let factors = [0.0, -0.0, 5e-324, 0.5, 0.9, 1.0, 1.1, 2.0, 1e300, f64::MAX, 2.0 * unit];
    let settings = Settings {
        adaptive_step: random.one_of(&[1, 1, 1, 2, 2, 7, 7, 1_000, pushes.max(1), pushes + 1, u64::MAX]),
        raising_factor: random.one_of(&factors),
        lowering_factor: random.one_of(&factors),
        threshold_floor: random.one_of(&[0.0, 0.0, -0.0, 1e-12, 1e-3 * unit, threshold, 2.0, f64::MAX]),
        ..settings
    };
    with_sizes(random, settings, size)
}

/// The settings with an upper and a lower size about this one.
pub fn with_sizes(random: &mut Random, settings: Settings, size: u32) -> Settings {
    let below = random.below(u64::from(size) + 1) as u32;
    let next = random.one_of(&[size.saturating_sub(1), size, size + 1]);
    let one = random.one_of(&[0, below, next, u32::MAX]);
    let other = random.one_of(&[next, next, one, below]);
    Settings { upper_size: one.max(other), lower_size: one.min(other), ..settings }
}

/// A node, the end of a link as often as any; now and then a number that is none.
fn node(random: &mut Random, call: &Call) -> u32 {
    let nodes = u64::from(call.nodes);
    let out_of_range = [nodes, nodes + random.below(70), u64::from(u32::MAX)];
    match random.below(16) {
        0 => random.one_of(&out_of_range) as u32,
        1..=8 if !call.second.is_empty() => random.one_of(&call.second),
        _ if nodes > 0 => random.below(nodes) as u32,
        _ => 0,
    }
}

/// How many links the longest row has, or the longest reverse row: a push goes through all of them.
fn longest_row(call: &Call) -> u64 {
    let longest = |ends: &[u32]| {
        let mut lengths = vec![0; call.nodes as usize];
        for &end in ends.iter().filter(|&&end| end < call.nodes) {
            lengths[end as usize] += 1;
        }
        lengths.into_iter().max().unwrap_or(0)
    };
    let row = if call.entry.takes_rows() {
        let lengths = call.first.windows(2).map(|pair| u64::from(pair[1].saturating_sub(pair[0])));
        lengths.max().unwrap_or(0)
    } else {
        longest(&call.first)
    };
    row.max(longest(&call.second))
}
