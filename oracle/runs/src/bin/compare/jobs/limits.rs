//! Jobs at the limits of weights, settings and sizes, on both sides of each, and the jobs that docs/RULES.md does by
//! hand.
use super::damaged::with_word;
use super::input::Input;
use crate::calls::sound::{sound, with_links, with_nodes};
use crate::calls::wishes::next_up;
use crate::calls::{limits, wishes};
use runs::calls::call::{Call, Wish, CHAIN_SETTINGS};
use runs::calls::entry::{Entry, Form};
use runs::calls::repaired;
use runs::entries::Settings;
use runs::jobs::bytes::{laid_out, MOST_LINKS, MOST_NODES, MOST_SOURCES, QUESTION};

/// The call that a job asks for.
pub const ENTRY: Entry = Entry::Solve(QUESTION, Form::Links);

pub fn weights() -> Vec<Input> {
    limits::weights(ENTRY).iter().map(Input::of).collect()
}

/// Every number at a limit, in each place of a small job and in each two, as far as it has room in a job: the adaptive numbers have
/// none.
pub fn settings() -> Vec<Input> {
    let has_room =
        |call: &Call| u32::try_from(call.wish.settings.max_pushes).is_ok() && repaired::takes(&call.wish.settings);
    wishes::limits(ENTRY).into_iter().filter(has_room).map(|call| Input::of(&call)).collect()
}

/// Each number of nodes with each of links and of sources, in bytes that match.
pub fn sizes() -> Vec<Input> {
    let (nodes, links, sources) = (MOST_NODES, MOST_LINKS, MOST_SOURCES);
    let mut found = Vec::new();
    for nodes in [0, 1, 3, nodes - 1, nodes, nodes + 1, 65_536, 65_537, 1 << 31, u32::MAX] {
        for links in [0, 1, 2, links - 1, links, links + 1] {
            for sources in [0, 1, sources - 1, sources, sources + 1] {
                let mut call = with_links(sound(ENTRY), links);
                call.nodes = nodes;
                call.wish.many = (0..sources as u32).map(|place| place % 4).collect();
                found.push(Input::of(&call));
            }
        }
    }
    found
}

/// The sums and edges that docs/RULES.md does by hand, each with its text.
pub fn by_hand() -> Vec<(Input, String)> {
    let plain = || {
        let wish = Wish { many: vec![0], settings: CHAIN_SETTINGS, ..Wish::default() };
        Call::on_links(2, &[(0, 1, 1.0)]).solving(QUESTION).wishing(wish)
    };
    let changed = |act: &dyn Fn(&mut Call)| {
        let mut call = plain();
        act(&mut call);
        laid_out(&call)
    };
    let set = |act: &dyn Fn(&mut Settings)| changed(&|call| act(&mut call.wish.settings));
    let fork = Call::on_links(3, &[(0, 1, 1.0), (0, 2, 1.0)]).solving(QUESTION);
    let fork =
        fork.wishing(Wish { many: vec![0], settings: Settings { max_pushes: 2, ..CHAIN_SETTINGS }, ..Wish::default() });
    let chain = text_of(3, 2, 0.125, &[(0.5, 0.0), (0.375, 0.125)]);
    let nothing_pushed = text_of(0, 0, 1.0, &[(0.0, 1.0), (0.0, 0.0)]);
    let refused = |number: u32| format!("refused {number}\n");
    let found = [
        (changed(&|_| ()), chain.clone()),
        (changed(&|call| *call = with_nodes(call.clone(), 0)), text_of(0, 0, 0.0, &[])),
        (changed(&|call| call.wish.many = vec![2]), text_of(0, 0, 0.0, &[(0.0, 0.0); 2])),
        (set(&|settings| settings.max_pushes = 0), nothing_pushed.clone()),
        (set(&|settings| settings.max_pushes = 1), text_of(1, 1, 0.5, &[(0.5, 0.0), (0.0, 0.5)])),
        (set(&|settings| settings.queue_threshold = 2.0), nothing_pushed.clone()),
        (set(&|settings| settings.epsilon = 0.75), text_of(1, 1, 0.5, &[(0.5, 0.0), (0.0, 0.5)])),
        (laid_out(&fork), text_of(2, 2, 0.078125f64.sqrt(), &[(0.5, 0.0), (0.0, 0.25), (0.125, 0.125)])),
        (
            changed(&|call| {
                call.wish.many = vec![0, 5];
                call.wish.settings.max_pushes = 0;
            }),
            text_of(0, 0, 0.5, &[(0.0, 0.5), (0.0, 0.0)]),
        ),
        // Of so large a degree the source's priority is below the threshold.
        (changed(&|call| call.weights[0] = 1_048_576.0), nothing_pushed),
        (changed(&|call| call.weights[0] = next_up(1_048_576.0)), refused(5)),
        (set(&|settings| settings.alpha = 0.0), text_of(10, 2, 1.0, &[(0.0, 0.0), (0.0, 1.0)])),
        (set(&|settings| settings.alpha = 1.0), text_of(1, 1, 0.0, &[(1.0, 0.0), (0.0, 0.0)])),
        (set(&|settings| settings.alpha = next_up(1.0)), refused(6)),
        (set(&|settings| settings.max_pushes = 1_000_000_000), chain),
        (set(&|settings| settings.max_pushes = 1_000_000_001), refused(6)),
        (with_word(&laid_out(&plain()), 16, 57), refused(8)),
        (changed(&|call| *call = with_nodes(call.clone(), 65_537)), refused(8)),
    ];
    found.into_iter().map(|(bytes, right)| (Input::new(bytes), right)).collect()
}

/// The text of these counts, this norm, and each node's estimate and residual.
fn text_of(pushes: u64, visited: u64, norm: f64, nodes: &[(f64, f64)]) -> String {
    let mut text = format!("done {pushes} {visited} {:016x}\n", norm.to_bits());
    for (node, (estimate, residual)) in nodes.iter().enumerate() {
        text += &format!("{node} {:016x} {:016x}\n", estimate.to_bits(), residual.to_bits());
    }
    text
}
