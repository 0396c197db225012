//! Calls that break the conditions of docs/RULES.md: each refusal number, each two at once, and several.
use super::made;
use super::smaller::smaller;
use super::sound::{
    buffers, sound, with_length, with_links, with_nodes, MOST_LINKS, MOST_NODES, MOST_OF_MANY, MOST_PUSHES,
};
use super::wishes::{each_link, records, SettingsOf};
use runs::calls::call::Call;
use runs::calls::entry::{Entry, Task};
use runs::calls::refusal::applies;
use runs::comparison::Comparison;
use runs::entries::Settings;
use runs::random::Random;

/// What makes a sound call break the condition of `number`. Damages of lower numbers go first: they set the sizes.
pub struct Damage {
    number: u32,
    /// Whether it makes a list of more links than are allowed: such calls take long.
    long: bool,
    act: Box<dyn Fn(&mut Call)>,
}

/// Every damage of the small sound call that is tried in pairs.
pub fn damages(entry: Entry) -> Vec<Damage> {
    // Two past the limit, so that a list made one shorter is still past it.
    let long = damage(2, |call| *call = with_links(call.clone(), MOST_LINKS + 2));
    let mut found = of_sizes(entry);
    found.push(Damage { long: true, ..long });
    found.extend(of_graphs(entry));
    found.extend(of_wishes(entry));
    found.sort_by_key(|damage| damage.number);
    found
}

fn damage(number: u32, act: impl Fn(&mut Call) + 'static) -> Damage {
    Damage { number, long: false, act: Box::new(act) }
}

/// Damages of the numbers 1, 2 and 3.
fn of_sizes(entry: Entry) -> Vec<Damage> {
    let mut found =
        vec![damage(1, |call| *call = with_nodes(call.clone(), MOST_NODES + 1)), damage(1, |call| call.nodes = u32::MAX)];
    if entry.task() == Some(Task::Multi) {
        found.push(damage(2, |call| call.wish.many.resize(MOST_OF_MANY + 1, 1)));
    }
    for buffer in 0..buffers(entry) {
        for by in [-1, 1] {
            found.push(damage(3, move |call| *call = with_length(call.clone(), buffer, by)));
        }
    }
    found
}

/// Damages of the numbers 4 and 5.
fn of_graphs(entry: Entry) -> Vec<Damage> {
    let mut found = Vec::new();
    if entry.takes_rows() {
        found.push(damage(4, |call| call.first[0] = 1));
        found.push(damage(4, |call| call.first[1] = call.first[2] + 1));
        found.push(damage(4, |call| call.first[1] = u32::MAX));
        found.push(damage(4, |call| *call.first.last_mut().expect("starts") = call.second.len() as u32 - 1));
        found.push(damage(4, |call| *call.first.last_mut().expect("starts") = call.second.len() as u32 + 1));
        found.push(damage(4, |call| *call.first.last_mut().expect("starts") = u32::MAX));
        found.push(damage(4, |call| call.second[0] = call.nodes));
        found.push(damage(4, |call| *call.second.last_mut().expect("columns") = call.nodes));
        found.push(damage(4, |call| *call.second.last_mut().expect("columns") = u32::MAX));
    }
    for weight in [1_048_576.0000000002, -5e-324, f64::NAN] {
        found.push(damage(5, move |call| call.weights[0] = weight));
        found.push(damage(5, move |call| *call.weights.last_mut().expect("weights") = weight));
    }
    found
}

/// Damages of the numbers 6 and 7.
fn of_wishes(entry: Entry) -> Vec<Damage> {
    let mut found: Vec<Damage> = records(entry).into_iter().flat_map(of_settings).collect();
    if entry.task() == Some(Task::Watched) {
        for precision in [-5e-324, f64::INFINITY, f64::NAN] {
            found.push(damage(7, move |call| call.wish.precision = precision));
        }
    }
    found
}

/// Damages of one settings record.
fn of_settings(record: SettingsOf) -> Vec<Damage> {
    let mut found = Vec::new();
    for alpha in [-5e-324, 1.0000000000000002, f64::NAN] {
        found.push(damage(6, move |call| record(&mut call.wish).alpha = alpha));
    }
    for number in [-5e-324, f64::INFINITY, f64::NAN] {
        found.push(damage(6, move |call| record(&mut call.wish).epsilon = number));
        found.push(damage(6, move |call| record(&mut call.wish).queue_threshold = number));
    }
    for pushes in [MOST_PUSHES + 1, u64::MAX] {
        found.push(damage(6, move |call| record(&mut call.wish).max_pushes = pushes));
    }
    found.extend(of_adaptive_numbers(record));
    found
}

/// Damages of the adaptive numbers of one settings record, whose threshold adapts or does not.
fn of_adaptive_numbers(record: SettingsOf) -> Vec<Damage> {
    let changed = |adaptive_threshold: bool, act: Box<dyn Fn(&mut Settings)>| {
        damage(6, move |call| {
            let settings = record(&mut call.wish);
            settings.adaptive_threshold = adaptive_threshold;
            act(settings);
        })
    };
    let mut found = Vec::new();
    for adaptive in [true, false] {
        found.push(changed(adaptive, Box::new(|settings| settings.adaptive_step = 0)));
        found.push(changed(adaptive, Box::new(|settings| (settings.upper_size, settings.lower_size) = (1, 2))));
    }
    for (number, adaptive) in [(-5e-324, true), (f64::INFINITY, false), (f64::NAN, true)] {
        found.push(changed(adaptive, Box::new(move |settings| settings.raising_factor = number)));
        found.push(changed(!adaptive, Box::new(move |settings| settings.lowering_factor = number)));
        found.push(changed(adaptive, Box::new(move |settings| settings.threshold_floor = number)));
    }
    found
}

/// Compares each damage by itself. Each refusal of a call that writes must meet NaNs of both kinds, so that a list which is read
/// and written back is seen.
pub fn compare_each(entry: Entry, comparison: &mut Comparison, of_call: impl Fn(&Call) -> Option<String>) {
    made::forget();
    let inputs = singles(entry).into_iter().flat_map(each_link);
    comparison.kind(&format!("{}, each damage", entry.name()), inputs, of_call, smaller);
    if !entry.written().is_empty() {
        let left = made::nans_left(&numbers(entry));
        comparison.reached(&format!("{}, refusals that left NaNs as they were", entry.name()), &left);
    }
}

fn singles(entry: Entry) -> Vec<Call> {
    let all = damages(entry);
    let found: Vec<Call> = all.iter().map(|damage| damaged(entry, [damage])).collect();
    for (call, damage) in found.iter().zip(&all) {
        assert!(applies(damage.number, call), "a damage breaks the condition of its number");
    }
    found
}

/// The call with each part of its wish damaged.
pub fn wishes(call: &Call) -> Vec<Call> {
    let damaged = |damage: &Damage| {
        let mut call = call.clone();
        (damage.act)(&mut call);
        call
    };
    of_wishes(call.entry).iter().map(damaged).collect()
}

/// The numbers that the entry can refuse with.
fn numbers(entry: Entry) -> Vec<u32> {
    let mut found: Vec<u32> = damages(entry).iter().map(|damage| damage.number).collect();
    found.dedup();
    found
}

/// Each two damages of different numbers, one after the other. With too many links, where `all_long` is not asked, only
/// one damage of each other number.
pub fn pairs(entry: Entry, all_long: bool) -> impl Iterator<Item = Call> {
    let all = damages(entry);
    let is_first = |place: usize| place == 0 || all[place - 1].number != all[place].number;
    let mut places = Vec::new();
    for first in 0..all.len() {
        for second in first + 1..all.len() {
            let long = all[first].long && !is_first(second) || all[second].long && !is_first(first);
            if all[second].number != all[first].number && (all_long || !long) {
                places.push((first, second));
            }
        }
    }
    places.into_iter().map(move |(first, second)| {
        let call = damaged(entry, [&all[first], &all[second]]);
        let both = [first, second].iter().all(|&place| applies(all[place].number, &call));
        assert!(both, "two damages break the conditions of both their numbers");
        call
    })
}

/// Several random damages, of which any number may be the same, and of any number on; too many links are left to the
/// pairs.
pub fn several(random: &mut Random, entry: Entry, all: &[Damage]) -> Call {
    let least = random.one_of(&[1, 2, 2, 2, 4, 4, 5, 6]);
    let chosen = all.iter().filter(|damage| !damage.long && damage.number >= least && random.below(12) == 0);
    damaged(entry, chosen.collect::<Vec<_>>())
}

fn damaged<'a>(entry: Entry, damages: impl IntoIterator<Item = &'a Damage>) -> Call {
    let mut call = sound(entry);
    for damage in damages {
        (damage.act)(&mut call);
    }
    call
}
