//! Calls at the limits that docs/RULES.md sets to sizes, lengths, weights and rows, on both sides of each.
use super::sound::{buffers, least, sound, with_length, with_links, with_nodes, MOST_LINKS, MOST_NODES};
use super::wishes::records;
use runs::calls::call::{Call, Wish};
use runs::calls::entry::{Entry, Task};
use runs::calls::shape::Size;

/// Every weight at a limit or next to one, and every kind that is refused.
const WEIGHTS: [f64; 20] = [
    0.0,
    -0.0,
    5e-324,
    -5e-324,
    f64::MIN_POSITIVE,
    -f64::MIN_POSITIVE,
    1.0,
    -1.0,
    1_048_575.9999999999,
    1_048_576.0,
    1_048_576.0000000002,
    -1_048_576.0,
    1_048_577.0,
    f64::MAX,
    f64::MIN,
    f64::INFINITY,
    f64::NEG_INFINITY,
    f64::NAN,
    f64::from_bits(0x7ff0_0000_0000_0001),
    f64::from_bits(0xfff8_0000_0000_0000),
];

/// Every length that is one off, by itself and with any other; buffers that are empty, or eight words too long.
pub fn lengths(entry: Entry) -> Vec<Call> {
    let mut found = Vec::new();
    for base in least(entry).into_iter().chain([sound(entry)]) {
        for buffer in 0..buffers(entry) {
            for by in [-1, 1] {
                let one = with_length(base.clone(), buffer, by);
                for other in buffer + 1..buffers(entry) {
                    found.extend([-1, 1].map(|by| with_length(one.clone(), other, by)));
                }
                found.push(one);
            }
            found.push(with_length(base.clone(), buffer, isize::MIN));
            found.push(with_length(base.clone(), buffer, 8));
        }
    }
    found
}

/// Every weight at a limit, in each place of the small call.
pub fn weights(entry: Entry) -> Vec<Call> {
    let base = sound(entry);
    let put = |place: usize, weight: f64| {
        let mut call = base.clone();
        call.weights[place] = weight;
        call
    };
    (0..base.weights.len()).flat_map(|place| WEIGHTS.map(|weight| put(place, weight))).collect()
}

/// Calls at the limits of size and next to them, and those without nodes or links.
pub fn sizes(entry: Entry) -> impl Iterator<Item = Call> {
    let grown = [
        (MOST_NODES, 10),
        (MOST_NODES + 1, 10),
        (3, MOST_LINKS),
        (3, MOST_LINKS + 1),
        (MOST_NODES, MOST_LINKS),
        (MOST_NODES + 1, MOST_LINKS + 1),
    ];
    let grown = grown.into_iter().map(move |(nodes, links)| with_nodes(with_links(sound(entry), links), nodes));
    // So many nodes that their number and one more is no u32: no buffer has lengths to match.
    let most = std::iter::once_with(move || Call { nodes: u32::MAX, ..sound(entry) });
    // Each buffer past the limit of links by itself: only the counted list gives 2.
    let long = (0..buffers(entry)).map(move |buffer| with_length(sound(entry), buffer, MOST_LINKS as isize));
    // The largest call, with a weight, or a column, that is refused in its very last place.
    let late = [4, 5].into_iter().filter(move |&number| number == 5 || entry.takes_rows()).map(move |number| {
        let mut call = with_nodes(with_links(sound(entry), MOST_LINKS), MOST_NODES);
        if number == 5 {
            *call.weights.last_mut().expect("links") = -1.0;
        } else {
            *call.second.last_mut().expect("links") = MOST_NODES;
        }
        call
    });
    least(entry).into_iter().chain(most).chain(grown).chain(long).chain(late)
}

/// Every starts and columns of up to `nodes` nodes and `links` links, each word from 0 to one past what a sound one
/// can be, in calls with buffers of the stated lengths.
pub fn every_rows(entry: Entry, nodes: u32, links: u32) -> impl Iterator<Item = Call> {
    let counted = |number: u64, base: u64, length: u32| -> Vec<u32> {
        (0..length).map(|place| (number / base.pow(place) % base) as u32).collect()
    };
    (0..=nodes).flat_map(move |n| {
        (0..=links).flat_map(move |m| {
            let (start, column) = (u64::from(m) + 2, u64::from(n) + 1);
            let of_starts = start.pow(Size::Starts.of(n, 0) as u32);
            (0..of_starts * column.pow(m)).map(move |number| {
                let starts = counted(number % of_starts, start, n + 1);
                let columns = counted(number / of_starts, column, m);
                let weights = (0..m).map(|place| 1.0 + f64::from(place)).collect();
                Call::on_rows(entry, n, starts, columns, weights)
            })
        })
    })
}

/// The edges that docs/RULES.md does by hand, and others of its table and of its requests, with the number that each gives.
pub fn by_hand(entries: &[Entry]) -> Vec<(Call, u32)> {
    let mut found = Vec::new();
    for &entry in entries {
        let weight = |weight: f64| {
            let mut call = sound(entry);
            call.weights[1] = weight;
            call
        };
        found.push((sound(entry), 0));
        found.push((with_nodes(sound(entry), 65_536), 0));
        found.push((with_nodes(sound(entry), 65_537), 1));
        found.push((weight(1_048_576.0), 0));
        found.push((weight(f64::from_bits(1_048_576f64.to_bits() + 1)), 5));
        found.push((weight(-0.0), 0));
        found.push((weight(f64::NAN), 5));
        found.push((with_links(sound(entry), 1_048_576), 0));
        found.push((with_links(sound(entry), 1_048_577), 2));
        // The first buffer that it writes, or else the last that it reads.
        found.push((with_length(sound(entry), 3.min(buffers(entry) - 1), 1), 3));
        if entry.takes_rows() {
            found.push((Call::on_rows(entry, 2, vec![0, 2, 1], vec![0], vec![1.0]), 4));
        }
        found.extend(wishes_by_hand(entry));
    }
    found
}

/// Those of a solve's settings, sources, targets and precision, and of a search's nodes.
fn wishes_by_hand(entry: Entry) -> Vec<(Call, u32)> {
    let wishing = |act: &dyn Fn(&mut Wish)| {
        let mut call = sound(entry);
        act(&mut call.wish);
        call
    };
    let mut found = Vec::new();
    for record in records(entry) {
        found.push((wishing(&|wish| record(wish).alpha = 0.0), 0));
        found.push((wishing(&|wish| record(wish).alpha = -0.0), 0));
        found.push((wishing(&|wish| record(wish).alpha = 1.0), 0));
        found.push((wishing(&|wish| record(wish).alpha = f64::from_bits(1f64.to_bits() + 1)), 6));
        found.push((wishing(&|wish| record(wish).max_pushes = 1_000_000_000), 0));
        found.push((wishing(&|wish| record(wish).max_pushes = 1_000_000_001), 6));
        found.push((wishing(&|wish| record(wish).adaptive_step = 1), 0));
        found.push((wishing(&|wish| record(wish).adaptive_step = 0), 6));
        found.push((wishing(&|wish| (record(wish).upper_size, record(wish).lower_size) = (2, 2)), 0));
        found.push((wishing(&|wish| (record(wish).upper_size, record(wish).lower_size) = (1, 2)), 6));
        found.push((wishing(&|wish| record(wish).raising_factor = -0.0), 0));
        found.push((wishing(&|wish| record(wish).raising_factor = f64::INFINITY), 6));
        found.push((wishing(&|wish| record(wish).lowering_factor = -0.0), 0));
        found.push((wishing(&|wish| record(wish).lowering_factor = -5e-324), 6));
        found.push((wishing(&|wish| record(wish).threshold_floor = -0.0), 0));
        found.push((wishing(&|wish| record(wish).threshold_floor = f64::NAN), 6));
    }
    if let Some(task) = entry.task() {
        found.push((wishing(&|wish| wish.precision = -0.0), 0));
        found.push((wishing(&|wish| wish.precision = -1.0), if task == Task::Watched { 7 } else { 0 }));
        found.push((wishing(&|wish| wish.many = vec![1; 65_536]), 0));
        found.push((wishing(&|wish| wish.many = vec![1; 65_537]), if task == Task::Multi { 2 } else { 0 }));
    }
    if entry.task().is_some() || entry.searches() {
        found.push((wishing(&|wish| wish.source = 3), 0));
        found.push((wishing(&|wish| wish.target = u32::MAX), 0));
    }
    found
}
