//! Calls with an empty list, or several, to be lent as NULL: those that are done, since there are no nodes, links or sources, and
//! those that are refused, since a list should be longer or for another reason.
use super::damaged;
use super::smaller::smaller;
use super::sound::{buffers, least, sound, with_length, MOST_NODES};
use super::wishes::each_link;
use runs::calls::call::Call;
use runs::calls::entry::{Entry, Task};
use runs::comparison::Comparison;
use runs::pointers::{null_if_empty, nulls};

/// Compares the calls with each empty list lent as NULL.
pub fn compare(entry: Entry, comparison: &mut Comparison, of_call: impl Fn(&Call) -> Option<String>) {
    let name = format!("{}, NULL for each empty list", entry.name());
    let inputs = calls(entry).into_iter().flat_map(each_link);
    comparison.kind(&name, inputs, |call| null_if_empty(|| of_call(call)), smaller);
    let lent = if entry.written().is_empty() { 1 } else { 2 };
    comparison.reached(&format!("{}, lists that were NULL", entry.name()), &nulls()[..lent]);
}

fn calls(entry: Entry) -> Vec<Call> {
    let mut bases: Vec<Call> = least(entry).into_iter().chain([sound(entry)]).collect();
    if entry.task() == Some(Task::Multi) {
        bases.extend(bases.clone().into_iter().map(of_none));
    }
    let mut found: Vec<Call> = bases.iter().flat_map(emptied).collect();
    found.extend(bases.iter().flat_map(damaged::wishes));
    found.extend([0, 1, 3, 64, MOST_NODES, MOST_NODES + 1, u32::MAX].map(|nodes| nothing(entry, nodes)));
    found.retain(has_empty);
    found
}

/// The call with no sources or targets.
fn of_none(mut call: Call) -> Call {
    call.wish.many.clear();
    call
}

/// The call as it is, with each list empty by itself, and with each two.
fn emptied(base: &Call) -> Vec<Call> {
    let empty = |call: &Call, buffer: usize| with_length(call.clone(), buffer, isize::MIN);
    let mut found = vec![base.clone()];
    for buffer in 0..buffers(base.entry) {
        let one = empty(base, buffer);
        found.extend((buffer + 1..buffers(base.entry)).map(|other| empty(&one, other)));
        found.push(one);
    }
    found
}

/// So many nodes, and nothing but empty lists.
fn nothing(entry: Entry, nodes: u32) -> Call {
    let all = |call: Call| (0..buffers(entry)).fold(call, |call, buffer| with_length(call, buffer, isize::MIN));
    of_none(Call { nodes, ..all(sound(entry)) })
}

fn has_empty(call: &Call) -> bool {
    let given = [call.first.len(), call.second.len(), call.weights.len()];
    let of_many = call.entry.task() == Some(Task::Multi) && call.wish.many.is_empty();
    of_many || given.iter().chain(&call.lengths).any(|&length| length == 0)
}
