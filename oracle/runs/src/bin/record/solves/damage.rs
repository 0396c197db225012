//! Calls that are refused: a sound one, and what breaks the condition of a number of docs/RULES.md. The Rust has no
//! refusals; a call's number is the least of those whose conditions were broken.
use super::drawn;
use super::recorded::{Recorded, FIRST, SECOND, THIRD};
use runs::calls::call::Wish;
use runs::calls::entry::{Entry, Task};
use runs::entries::Settings;
use runs::random::Random;

/// What makes a sound call break the condition of `number`.
pub struct Damage {
    pub number: u32,
    act: Box<dyn Fn(&mut Recorded)>,
}

impl Damage {
    fn new(number: u32, act: impl Fn(&mut Recorded) + 'static) -> Self {
        Self { number, act: Box::new(act) }
    }
}

/// One of the lengths of what is lent.
type Length = Box<dyn Fn(&mut Recorded) -> &mut usize>;

/// The lengths that are stated: not that of the list that states it.
fn stated(entry: Entry) -> Vec<Length> {
    let read = if entry.takes_rows() { [FIRST, THIRD] } else { [SECOND, THIRD] };
    let mut found: Vec<Length> = Vec::new();
    for place in read {
        found.push(Box::new(move |recorded| &mut recorded.read[place]));
    }
    for place in 0..entry.written().len() {
        found.push(Box::new(move |recorded| &mut recorded.call.lengths[place]));
    }
    found
}

/// Every damage of a call on the graph of `whole`; of each length first that it is too short, and then too long.
pub fn damages(entry: Entry) -> Vec<Damage> {
    let mut found = vec![
        Damage::new(1, |recorded| recorded.call.nodes = 65_537),
        Damage::new(1, |recorded| recorded.call.nodes = u32::MAX),
    ];
    for (shorter, longer) in stated(entry).into_iter().zip(stated(entry)) {
        found.push(Damage::new(3, move |recorded| *shorter(recorded) -= 1));
        found.push(Damage::new(3, move |recorded| *longer(recorded) += 1));
    }
    if entry.takes_rows() {
        found.push(Damage::new(4, |Recorded { call, .. }| call.first[0] = 1));
        found.push(Damage::new(4, |Recorded { call, .. }| call.first[1] = call.first[2] + 1));
        found.push(Damage::new(4, |Recorded { call, .. }| *call.first.last_mut().expect("starts") += 1));
        found.push(Damage::new(4, |Recorded { call, .. }| {
            *call.second.last_mut().expect("columns") = call.nodes.min(65_535);
        }));
    }
    for weight in [1_048_576.0000000002, -5e-324, -1.0, f64::INFINITY, f64::NAN] {
        found.push(Damage::new(5, move |Recorded { call, .. }| *call.weights.last_mut().expect("weights") = weight));
    }
    found.extend(of_settings(|recorded| &mut recorded.call.wish.settings));
    if entry.pushes_both_ways() {
        found.extend(of_settings(|recorded| &mut recorded.call.wish.backward_settings));
    }
    if entry.task() == Some(Task::Watched) {
        for precision in [-5e-324, -1.0, f64::INFINITY, f64::NAN] {
            found.push(Damage::new(7, move |recorded| recorded.call.wish.precision = precision));
        }
    }
    found
}

/// Damages of one settings record.
fn of_settings(record: fn(&mut Recorded) -> &mut Settings) -> Vec<Damage> {
    let mut found = Vec::new();
    for amount in [-5e-324, -1.0, f64::INFINITY, f64::NAN] {
        found.push(Damage::new(6, move |recorded| record(recorded).epsilon = amount));
        found.push(Damage::new(6, move |recorded| record(recorded).queue_threshold = amount));
    }
    found.push(Damage::new(6, move |recorded| record(recorded).max_pushes = 1_000_000_001));
    for alpha in [-5e-324, 1.0000000000000002, f64::INFINITY, f64::NAN] {
        found.push(Damage::new(6, move |recorded| record(recorded).alpha = alpha));
    }
    found
}

/// A sound call with each list longer than one, on a graph in which every link is kept.
fn whole(random: &mut Random, entry: Entry) -> Recorded {
    let settings = Settings { alpha: 0.5, max_pushes: 10, ..drawn::settings(random) };
    let links = [(0, 1, 1.0), (1, 2, 0.5), (2, 0, 2.0), (3, 3, 1.0), (0, 2, 0.25), (1, 0, 0.125)];
    let wish = Wish { source: 0, target: 2, many: vec![0, 3], precision: 0.25, settings, backward_settings: settings };
    Recorded::on_links(entry, 4, &links, wish)
}

/// A call with some damages of one entry, and the number that refuses it.
pub fn refused<'a>(random: &mut Random, entry: Entry, some: impl Iterator<Item = &'a Damage>) -> (Recorded, u32) {
    let mut recorded = whole(random, entry);
    let mut least = u32::MAX;
    for damage in some {
        (damage.act)(&mut recorded);
        least = least.min(damage.number);
    }
    (recorded, least)
}

/// Calls with a few damages each, of which two of one number, or one twice, may undo each other: so none has two lengths
/// or two weights damaged.
pub fn several(random: &mut Random, entries: &[Entry]) -> (Recorded, u32) {
    let entry = random.one_of(entries);
    let all = damages(entry);
    let mut chosen: Vec<&Damage> = Vec::new();
    for _ in 0..4 {
        let damage = &all[random.below(all.len() as u64) as usize];
        if chosen.iter().all(|other| other.number != damage.number) {
            chosen.push(damage);
        }
    }
    refused(random, entry, chosen.into_iter())
}
