//! Small sound calls, and how one is given another size: to be damaged, or to meet a limit.
use runs::calls::call::Call;
use runs::calls::entry::Entry;
use runs::calls::shape::Size;

pub const MOST_NODES: u32 = 65_536;
pub const MOST_LINKS: usize = 1_048_576;
/// Of sources, or of targets.
pub const MOST_OF_MANY: usize = 65_536;
pub const MOST_PUSHES: u64 = 1_000_000_000;

/// A small sound call: three nodes, four links, in the list also three that are not kept.
pub fn sound(entry: Entry) -> Call {
    if entry.takes_rows() {
        return Call::on_rows(entry, 3, vec![0, 2, 2, 4], vec![2, 1, 0, 2], vec![0.5, 0.25, 1.0, 2.0]);
    }
    let kept = [(2, 0, 1.0), (0, 1, 0.5), (0, 2, 0.25), (2, 2, 2.0)];
    let list = [kept[0], (3, 1, 0.125), kept[1], (1, 3, 4.0), kept[2], (9, 9, 8.0), kept[3]];
    of_links(entry, 3, &list)
}

/// An entry that takes a list of links, on these.
fn of_links(entry: Entry, nodes: u32, links: &[(u32, u32, f64)]) -> Call {
    Call { entry, ..Call::on_links(nodes, links) }.with_stated_lengths()
}

/// Sound calls without nodes, without links, and of one node.
pub fn least(entry: Entry) -> Vec<Call> {
    if entry.takes_rows() {
        let rows = |n: u32, starts: &[u32], columns: &[u32]| {
            Call::on_rows(entry, n, starts.to_vec(), columns.to_vec(), vec![1.0; columns.len()])
        };
        return vec![rows(0, &[0], &[]), rows(1, &[0, 0], &[]), rows(1, &[0, 1], &[0]), rows(3, &[0, 0, 0, 0], &[])];
    }
    let list = |n: u32, ends: &[(u32, u32)]| {
        of_links(entry, n, &ends.iter().map(|&(from, to)| (from, to, 1.0)).collect::<Vec<_>>())
    };
    vec![list(0, &[]), list(0, &[(0, 0), (1, 0)]), list(1, &[]), list(1, &[(0, 0)]), list(3, &[]), list(3, &[(3, 0)])]
}

/// The call with so many nodes, and buffers to match.
pub fn with_nodes(mut call: Call, nodes: u32) -> Call {
    call.nodes = nodes;
    if call.entry.takes_rows() {
        let end = call.second.len() as u32;
        call.first.resize(nodes as usize + 1, end);
    }
    call.with_stated_lengths()
}

/// The call with so many links, and buffers to match: its last link again and again.
pub fn with_links(mut call: Call, links: usize) -> Call {
    if call.entry.takes_rows() {
        *call.first.last_mut().expect("rows have starts") = links as u32;
    } else {
        let end = *call.first.last().expect("a link");
        call.first.resize(links, end);
    }
    let (end, weight) = (*call.second.last().expect("a link"), *call.weights.last().expect("a link"));
    call.second.resize(links, end);
    call.weights.resize(links, weight);
    // The others stay: a damaged number of nodes may state lengths that no buffer can have.
    for (shape, length) in call.entry.written().iter().zip(&mut call.lengths) {
        if shape.size == Size::Links {
            *length = links;
        }
    }
    call
}

/// The call with one of its buffers, given or written, that much longer or shorter.
pub fn with_length(mut call: Call, buffer: usize, by: isize) -> Call {
    let changed = |length: usize| length.saturating_add_signed(by);
    match buffer {
        0 => call.first.resize(changed(call.first.len()), 0),
        1 => call.second.resize(changed(call.second.len()), 0),
        2 => call.weights.resize(changed(call.weights.len()), 0.0),
        _ => call.lengths[buffer - 3] = changed(call.lengths[buffer - 3]),
    }
    call
}

/// How many buffers the entry has, given and written.
pub fn buffers(entry: Entry) -> usize {
    3 + entry.written().len()
}
