//! Calls smaller than a given one, sound or damaged: fewer links, fewer nodes, a buffer of its stated length, plainer
//! weights, lower ends, a plainer wish. Each is a call of its own, whose outcome is worked out anew.
use super::wishes::{records, SettingsOf};
use runs::calls::call::{Call, Wish, PLAIN_SETTINGS};
use runs::comparison::same;
use runs::entries::Settings;
use std::ops::Range;

/// Up to so many links, each link is tried by itself.
const FEW: usize = 64;

pub fn smaller(call: &Call) -> Vec<Call> {
    let mut found: Vec<Call> = chunks(call.links()).into_iter().map(|cut| without_links(call, cut)).collect();
    found.extend(chunks(call.nodes as usize).into_iter().map(|cut| without_nodes(call, cut)));
    found.extend((0..call.lengths.len()).filter_map(|place| of_stated_length(call, place)));
    for simpler in [one, digitless] {
        found.extend(with_weights(call, |_| true, simpler));
        let each = 0..few(call.weights.len());
        found.extend(each.filter_map(|only| with_weights(call, |place| place == only, simpler)));
    }
    let (firsts, seconds) = (0..few(call.first.len()), 0..few(call.second.len()));
    found.extend(firsts.filter_map(|place| with_lower(call, |smaller| &mut smaller.first[place])));
    found.extend(seconds.filter_map(|place| with_lower(call, |smaller| &mut smaller.second[place])));
    if call.entry.task().is_some() || call.entry.searches() {
        found.extend(with_lower(call, |smaller| &mut smaller.wish.source));
        found.extend(with_lower(call, |smaller| &mut smaller.wish.target));
    }
    if call.entry.task().is_some() {
        found.extend(with_smaller_wishes(call));
    }
    found
}

/// The length, or 0 where single places are too many to be tried.
fn few(length: usize) -> usize {
    if length <= FEW {
        length
    } else {
        0
    }
}

/// Parts of a list to be left out: all of it, its halves, its quarters and so on. Of many, only the one at the end:
/// each part makes a call, and all of these are held at once.
fn chunks(length: usize) -> Vec<Range<usize>> {
    let most = if length > 4096 { 8 } else { FEW };
    let mut found = Vec::new();
    let mut size = length;
    while size > 0 {
        if length.div_ceil(size) <= most {
            found.extend((0..length).step_by(size).map(|start| start..(start + size).min(length)));
        } else {
            found.push(length - size..length);
        }
        size = if size == 1 { 0 } else { size.div_ceil(2) };
    }
    found
}

/// How many places of `cut` lie below `place`.
fn cut_below(cut: &Range<usize>, place: usize) -> usize {
    place.min(cut.end) - place.min(cut.start)
}

fn remove<T>(list: &mut Vec<T>, cut: &Range<usize>) {
    list.drain(cut.start.min(list.len())..cut.end.min(list.len()));
}

/// The smaller call, with each buffer as far from its stated length as it was.
fn shortened(call: &Call, mut smaller: Call) -> Call {
    let stated = call.stated().into_iter().zip(smaller.stated());
    for (length, (before, after)) in smaller.lengths.iter_mut().zip(stated) {
        *length = (*length + after).saturating_sub(before);
    }
    smaller
}

fn without_links(call: &Call, cut: Range<usize>) -> Call {
    let mut smaller = call.clone();
    if call.entry.takes_rows() {
        smaller.first.iter_mut().for_each(|start| *start -= cut_below(&cut, *start as usize) as u32);
    } else {
        remove(&mut smaller.first, &cut);
    }
    remove(&mut smaller.second, &cut);
    remove(&mut smaller.weights, &cut);
    shortened(call, smaller)
}

/// The nodes of `cut` become one with the node before which they are left out; their rows with the row there.
fn without_nodes(call: &Call, cut: Range<usize>) -> Call {
    let mut smaller = call.clone();
    let lower = |end: &mut u32| *end -= cut_below(&cut, *end as usize) as u32;
    smaller.nodes -= cut.len() as u32;
    if call.entry.takes_rows() {
        remove(&mut smaller.first, &(cut.start + 1..cut.end + 1));
    } else {
        smaller.first.iter_mut().for_each(lower);
    }
    smaller.second.iter_mut().for_each(lower);
    smaller.wish.many.iter_mut().for_each(lower);
    lower(&mut smaller.wish.source);
    lower(&mut smaller.wish.target);
    shortened(call, smaller)
}

fn of_stated_length(call: &Call, place: usize) -> Option<Call> {
    let stated = call.stated()[place];
    // A number of nodes far past its limit states lengths that no buffer has.
    (call.lengths[place] != stated && stated < 1 << 24).then(|| {
        let mut smaller = call.clone();
        smaller.lengths[place] = stated;
        smaller
    })
}

fn one(_: f64) -> f64 {
    1.0
}

/// The power of two below; what has no digits past its first stays.
fn digitless(weight: f64) -> f64 {
    let bits = weight.to_bits();
    if weight.is_finite() && bits >> 52 & 0x7ff != 0 {
        f64::from_bits(bits >> 52 << 52)
    } else {
        weight
    }
}

fn with_weights(call: &Call, chosen: impl Fn(usize) -> bool, simpler: fn(f64) -> f64) -> Option<Call> {
    let mut smaller = call.clone();
    let mut changed = false;
    for (place, weight) in smaller.weights.iter_mut().enumerate() {
        // A one is plainest: it is never changed, so that no two calls are each smaller than the other.
        if chosen(place) && *weight != 1.0 && simpler(*weight).to_bits() != weight.to_bits() {
            *weight = simpler(*weight);
            changed = true;
        }
    }
    changed.then_some(smaller)
}

/// The chosen word made 0, or where it is past the nodes, the first that is.
fn with_lower(call: &Call, word: impl Fn(&mut Call) -> &mut u32) -> Option<Call> {
    let mut smaller = call.clone();
    let nodes = call.nodes;
    let word = word(&mut smaller);
    let lower = if *word > nodes { nodes } else { 0 };
    let changed = *word != lower;
    *word = lower;
    changed.then_some(smaller)
}

fn with_smaller_wishes(call: &Call) -> Vec<Call> {
    let mut found: Vec<Call> = chunks(call.wish.many.len()).iter().map(|cut| without_many(call, cut)).collect();
    let many = 0..few(call.wish.many.len());
    found.extend(many.filter_map(|place| with_lower(call, |smaller| &mut smaller.wish.many[place])));
    if !same(call.wish.precision, 0.25) {
        found.push(with_wish(call, |wish| wish.precision = 0.25));
    }
    found.extend(records(call.entry).into_iter().flat_map(|record| with_plainer(call, record)));
    found
}

/// The parts of a settings record but its number of pushes: whether two records have the same, and what takes it over.
type Part = (fn(&Settings, &Settings) -> bool, fn(&mut Settings, &Settings));

const PARTS: [Part; 10] = [
    (|a, b| same(a.alpha, b.alpha), |to, from| to.alpha = from.alpha),
    (|a, b| same(a.epsilon, b.epsilon), |to, from| to.epsilon = from.epsilon),
    (|a, b| same(a.queue_threshold, b.queue_threshold), |to, from| to.queue_threshold = from.queue_threshold),
    (|a, b| a.adaptive_threshold == b.adaptive_threshold, |to, from| to.adaptive_threshold = from.adaptive_threshold),
    (|a, b| a.adaptive_step == b.adaptive_step, |to, from| to.adaptive_step = from.adaptive_step),
    (|a, b| a.upper_size == b.upper_size, |to, from| to.upper_size = from.upper_size),
    (|a, b| a.lower_size == b.lower_size, |to, from| to.lower_size = from.lower_size),
    (|a, b| same(a.raising_factor, b.raising_factor), |to, from| to.raising_factor = from.raising_factor),
    (|a, b| same(a.lowering_factor, b.lowering_factor), |to, from| to.lowering_factor = from.lowering_factor),
    (|a, b| same(a.threshold_floor, b.threshold_floor), |to, from| to.threshold_floor = from.threshold_floor),
];

/// The call with each part of one settings record made plain, and with fewer pushes.
fn with_plainer(call: &Call, record: SettingsOf) -> Vec<Call> {
    let settings = *record(&mut call.wish.clone());
    let unlike = PARTS.iter().filter(|(alike, _)| !alike(&settings, &PLAIN_SETTINGS));
    let mut found: Vec<Call> =
        unlike.map(|(_, take)| with_wish(call, |wish| take(record(wish), &PLAIN_SETTINGS))).collect();
    if settings.max_pushes != 0 {
        found.push(with_wish(call, |wish| record(wish).max_pushes /= 2));
        found.push(with_wish(call, |wish| record(wish).max_pushes -= 1));
    }
    found
}

fn without_many(call: &Call, cut: &Range<usize>) -> Call {
    let mut smaller = call.clone();
    remove(&mut smaller.wish.many, cut);
    smaller
}

fn with_wish(call: &Call, act: impl Fn(&mut Wish)) -> Call {
    let mut smaller = call.clone();
    act(&mut smaller.wish);
    smaller
}
