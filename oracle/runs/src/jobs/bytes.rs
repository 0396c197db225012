//! The bytes of a job, little-endian, and the call of the forward solve from many sources that they stand for.
use crate::calls::call::{Call, Wish};
use crate::calls::entry::{Question, Solver, Task};
use crate::entries::Settings;

/// The job's own limits.
pub const MOST_NODES: u32 = 256;
pub const MOST_LINKS: usize = 1_024;
pub const MOST_SOURCES: usize = 16;

/// Where the settings begin, and where the links.
const SETTINGS: usize = 24;
const LINKS: usize = 56;

/// The only call that a job can ask for.
pub const QUESTION: Question = Question { solver: Solver::Forward, task: Task::Multi };

/// The bytes of a job that asks for this call on links. It can be refused, as long as its numbers have room.
pub fn laid_out(call: &Call) -> Vec<u8> {
    let narrow = |count: usize| u32::try_from(count).expect("a count of 4 bytes");
    let (links, many, settings) = (call.links(), &call.wish.many, &call.wish.settings);
    let pushes = u32::try_from(settings.max_pushes).expect("so many pushes as have room in 4 bytes");
    let offsets = [SETTINGS, LINKS, LINKS + 16 * links].map(narrow);
    let mut bytes = Vec::with_capacity(LINKS + 16 * links + 4 * many.len());
    for word in [call.nodes, narrow(links), narrow(many.len())].into_iter().chain(offsets) {
        bytes.extend(word.to_le_bytes());
    }
    for float in [settings.alpha, settings.epsilon, settings.queue_threshold] {
        bytes.extend(float.to_bits().to_le_bytes());
    }
    for word in [pushes, u32::from(settings.adaptive_threshold)] {
        bytes.extend(word.to_le_bytes());
    }
    for ((from, to), weight) in call.first.iter().zip(&call.second).zip(&call.weights) {
        bytes.extend(from.to_le_bytes());
        bytes.extend(to.to_le_bytes());
        bytes.extend(weight.to_bits().to_le_bytes());
    }
    for source in many {
        bytes.extend(source.to_le_bytes());
    }
    bytes
}

/// The call that a job asks for; none where the bytes have another shape, or one of the job's own limits is passed.
pub fn call_in(bytes: &[u8]) -> Option<Call> {
    if bytes.len() < LINKS {
        return None;
    }
    let [nodes, links, sources, at_settings, at_links, at_sources] = [0, 4, 8, 12, 16, 20].map(|at| word(bytes, at));
    let (flags, many) = (word(bytes, 52), u64::from(sources));
    let end_of_links = LINKS as u64 + 16 * u64::from(links);
    let within_limits = nodes <= MOST_NODES && links as usize <= MOST_LINKS && sources as usize <= MOST_SOURCES;
    let in_place = at_settings as usize == SETTINGS
        && at_links as usize == LINKS
        && u64::from(at_sources) == end_of_links
        && bytes.len() as u64 == end_of_links + 4 * many;
    if !within_limits || !in_place || flags > 1 {
        return None;
    }
    let settings = Settings {
        alpha: float(bytes, 24),
        epsilon: float(bytes, 32),
        queue_threshold: float(bytes, 40),
        max_pushes: u64::from(word(bytes, 48)),
        adaptive_threshold: flags == 1,
        // A job has no others.
        ..Settings::DEFAULT
    };
    let (list, many) = bytes[LINKS..].split_at(16 * links as usize);
    let list: Vec<_> = list.chunks_exact(16).map(|link| (word(link, 0), word(link, 4), float(link, 8))).collect();
    let many = many.chunks_exact(4).map(|source| word(source, 0)).collect();
    let wish = Wish { many, settings, ..Wish::default() };
    Some(Call::on_links(nodes, &list).solving(QUESTION).wishing(wish))
}

fn word(bytes: &[u8], at: usize) -> u32 {
    u32::from_le_bytes(bytes[at..at + 4].try_into().expect("four bytes"))
}

fn float(bytes: &[u8], at: usize) -> f64 {
    f64::from_le_bytes(bytes[at..at + 8].try_into().expect("eight bytes"))
}
