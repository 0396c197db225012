//! Bytes that are nearly those of a job: each field of the header exchanged, each length, each bit, and several bytes.
use super::input::Input;
use super::limits::ENTRY;
use crate::calls::lists;
use crate::calls::sound::{sound, with_links};
use crate::calls::wishes;
use runs::calls::call::{Call, Wish};
use runs::calls::refusal::refusal;
use runs::jobs::bytes::{call_in, laid_out, MOST_LINKS, MOST_NODES, MOST_SOURCES, QUESTION};
use runs::jobs::program::{Program, Way};
use runs::random::Random;

/// The places of the header's fields.
const FIELDS: [usize; 6] = [0, 4, 8, 12, 16, 20];
/// The place of the flags.
const FLAGS: usize = 52;

/// The chain of two nodes.
fn chain() -> Vec<u8> {
    let wish = Wish { many: vec![0], ..Wish::default() };
    laid_out(&Call::on_links(2, &[(0, 1, 1.0)]).solving(QUESTION).wishing(wish))
}

/// A job of every part at its limit.
fn largest() -> Vec<u8> {
    let mut call = with_links(sound(ENTRY), MOST_LINKS);
    call.nodes = MOST_NODES;
    call.wish.many = (0..MOST_SOURCES as u32).collect();
    laid_out(&call)
}

/// Small sound jobs: the chain, one of more links and sources, and those without nodes, links or sources.
fn small() -> [Vec<u8>; 5] {
    let few = sound(ENTRY);
    let no_links = Call::on_links(3, &[]).solving(QUESTION);
    let mut no_sources = few.clone();
    no_sources.wish.many.clear();
    let mut nothing = Call::on_links(0, &[]).solving(QUESTION);
    nothing.wish.many.clear();
    [chain(), laid_out(&few), laid_out(&no_links), laid_out(&no_sources), laid_out(&nothing)]
}

/// Jobs of which no byte can be read, and jobs of which a read fails after some bytes: every number of them of the chain, some of
/// the others, and all of each. What was read until then is the input, as if it had ended there.
pub fn failing(program: &Program) -> Vec<Input> {
    let mut found = vec![Input { bytes: Vec::new(), way: Way::Folder }];
    // Under an emulator this would be the emulator's own input, into whose place it may open a file.
    if !program.is_emulated() {
        found.push(Input { bytes: Vec::new(), way: Way::Closed });
    }
    let cut = |bytes: &[u8], length: usize| Input { bytes: bytes[..length].to_vec(), way: Way::Failing };
    for (place, bytes) in small().into_iter().chain([largest()]).enumerate() {
        let step = if place == 0 { 1 } else { bytes.len() / 8 };
        found.extend((0..bytes.len()).step_by(step).map(|length| cut(&bytes, length)));
        found.extend([bytes.len() - 1, bytes.len()].map(|length| cut(&bytes, length)));
    }
    found
}

/// The bytes with another word in a place.
pub fn with_word(bytes: &[u8], place: usize, word: u32) -> Vec<u8> {
    let mut changed = bytes.to_vec();
    changed[place..place + 4].copy_from_slice(&word.to_le_bytes());
    changed
}

fn word(bytes: &[u8], place: usize) -> u32 {
    u32::from_le_bytes(bytes[place..place + 4].try_into().expect("four bytes"))
}

/// What may stand in a field in the place of its own number: those next to it, limits, and numbers of which a multiple,
/// as bytes are counted, goes round to the right one in 32 digits.
fn others(own: u32) -> Vec<u32> {
    let near = [1, 4, 8, 16].into_iter().flat_map(|by| [own.wrapping_add(by), own.wrapping_sub(by)]);
    let round = [1 << 16, 1 << 28, 1 << 29, 1 << 30, 1 << 31].map(|by| own.wrapping_add(by));
    let limits = [0, 1, 2, 15, 16, 17, 24, 25, 56, 57, 72, 255, 256, 257, 1_023, 1_024, 1_025];
    let ends = [(1 << 31) - 1, 1 << 31, u32::MAX - 1, u32::MAX, own.swap_bytes(), own.wrapping_neg()];
    near.chain(round).chain(limits).chain(ends).filter(|&other| other != own).collect()
}

/// Each field of the header in several jobs, exchanged for each of its others.
pub fn fields() -> Vec<Input> {
    let mut found = Vec::new();
    for bytes in small().into_iter().chain([largest()]) {
        for place in FIELDS {
            let exchanged = others(word(&bytes, place)).into_iter().map(|other| with_word(&bytes, place, other));
            found.extend(exchanged.map(Input::new));
        }
    }
    found
}

/// Each two fields of the header at once.
pub fn pairs_of_fields() -> Vec<Input> {
    let few = |own: u32| {
        let near = [1, 16, 1 << 28].map(|by| own.wrapping_add(by));
        near.into_iter().chain([own.wrapping_sub(1), own.wrapping_sub(16), 0, 257, 1 << 31, u32::MAX])
    };
    let bytes = chain();
    let mut found = Vec::new();
    for (number, &first) in FIELDS.iter().enumerate() {
        for &second in &FIELDS[number + 1..] {
            for one in few(word(&bytes, first)) {
                let changed = with_word(&bytes, first, one);
                found.extend(few(word(&bytes, second)).map(|other| with_word(&changed, second, other)));
            }
        }
    }
    found.into_iter().map(Input::new).collect()
}

/// A job's bytes, read with fewer links and more sources, or more links and fewer sources, as far as they have the
/// shape.
pub fn shared_otherwise() -> Vec<Input> {
    let mut found = Vec::new();
    for bytes in small() {
        let after_settings = bytes.len() - 56;
        for links in 0..=after_settings / 16 {
            let sources = (after_settings - 16 * links) / 4;
            let counted = with_word(&with_word(&bytes, 4, links as u32), 8, sources as u32);
            found.push(Input::new(with_word(&counted, 20, 56 + 16 * links as u32)));
        }
    }
    found
}

/// Each flag by itself, and each two.
pub fn flags() -> Vec<Input> {
    let masks = (0..32).flat_map(|one| (one..32).map(move |other| 1u32 << one | 1 << other)).chain([u32::MAX]);
    masks.map(|mask| Input::new(with_word(&chain(), FLAGS, mask))).collect()
}

/// Each small job at every length that is shorter, and at some that are longer; the largest at some lengths, or with
/// `every` at each of them too.
pub fn lengths(every: bool) -> Vec<Input> {
    let mut found = Vec::new();
    for bytes in small() {
        found.extend((0..=bytes.len() + 20).map(|length| of_length(&bytes, length, 0)));
        found.extend([100, 1_000, 5_000, 16_000].map(|more| of_length(&bytes, bytes.len() + more, 0xff)));
    }
    let bytes = largest();
    if every {
        found.extend((0..bytes.len()).map(|length| of_length(&bytes, length, 0)));
    } else {
        let some = [0, 1, 23, 24, 25, 55, 56, 57, 1_000, 4_095, 4_096, 4_097, 8_192];
        found.extend(some.map(|length| of_length(&bytes, length, 0)));
    }
    found.extend((bytes.len() - 70..=bytes.len() + 3).map(|length| of_length(&bytes, length, 0)));
    found
}

/// As many bytes as the longest job has, one more, and many more: a sound job with bytes after it, and no job at all.
pub fn long() -> Vec<Input> {
    let mut found = Vec::new();
    for length in [16_504, 16_505, 16_506, 20_000, 65_536, 65_537, 100_000, 1_000_000] {
        for bytes in small().into_iter().chain([largest(), Vec::new()]) {
            found.extend([0, 1, 0xff].map(|rest| of_length(&bytes, length, rest)));
        }
    }
    found
}

fn of_length(bytes: &[u8], length: usize, rest: u8) -> Input {
    let mut bytes = bytes.to_vec();
    bytes.resize(length, rest);
    Input::new(bytes)
}

/// Each bit of the small jobs turned by itself: where that allows many pushes, the others still see to it that few are
/// made.
pub fn bits() -> Vec<Input> {
    let mut found = Vec::new();
    for bytes in small() {
        for place in 0..8 * bytes.len() {
            let mut turned = bytes.clone();
            turned[place / 8] ^= 1 << (place % 8);
            found.push(Input::new(turned));
        }
    }
    found
}

/// Random jobs with one to three bytes exchanged: half of them in header and settings, where few of a job's bytes are.
pub fn several(random: &mut Random, count: u64) -> impl Iterator<Item = Input> + '_ {
    let damaged = move |_| loop {
        let graph = lists::random(random, 8, 24, false).solving(QUESTION);
        let mut wish = wishes::drawn(random, &graph);
        wish.many.truncate(MOST_SOURCES);
        let mut bytes = laid_out(&graph.wishing(wish));
        let among = if random.below(2) == 0 { 56 } else { bytes.len() as u64 };
        for _ in 0..1 + random.below(3) {
            let any = random.next() as u8;
            bytes[random.below(among) as usize] = random.one_of(&[0, 1, 0x7f, 0x80, 0xff, any]);
        }
        let input = Input::new(bytes);
        if ends(&input) {
            return input;
        }
    };
    (0..count).map(damaged)
}

/// Whether the solve, if there is one, makes few pushes. With weights so small that their products are rounded up, one
/// that is allowed many may never run out of them.
fn ends(input: &Input) -> bool {
    call_in(&input.bytes).is_none_or(|call| refusal(&call) != 0 || call.wish.settings.max_pushes <= 20_000)
}
