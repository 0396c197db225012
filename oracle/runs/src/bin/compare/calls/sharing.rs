//! Calls whose lists to be read have words in common, so that they can share memory.
use super::wishes;
use runs::calls::call::Call;
use runs::calls::entry::{Entry, Form};
use runs::random::Random;

/// A call in this form, of which every list is a stretch of the same few words.
pub fn drawn(random: &mut Random, form: Form) -> Call {
    let nodes = 1 + random.below(6) as u32;
    let links = random.below(u64::from(nodes)) as usize;
    let mut words = if form == Form::Rows { starts(random, nodes, links) } else { Vec::new() };
    let starts = words.clone();
    // So many that even the weights find room.
    words.extend((0..2 * links as u64 + random.below(4)).map(|_| random.below(u64::from(nodes) + 1) as u32));
    let weights = weights(random, &words, links);
    let second = stretch(random, &words, links);
    let mut call = match form {
        Form::Links => Call { second, ..of_links(stretch(random, &words, links), weights, nodes) },
        Form::Rows => Call::on_rows(Entry::FromMatrix, nodes, starts, second, weights),
    };
    let many = random.below(words.len() as u64 + 1) as usize;
    call.wish = wishes::drawn(random, &call);
    call.wish.many = stretch(random, &words, many);
    call
}

fn of_links(from: Vec<u32>, weights: Vec<f64>, nodes: u32) -> Call {
    let links: Vec<(u32, u32, f64)> = from.into_iter().zip(weights).map(|(from, weight)| (from, 0, weight)).collect();
    Call::on_links(nodes, &links)
}

/// So many words, from one that is drawn.
fn stretch(random: &mut Random, words: &[u32], length: usize) -> Vec<u32> {
    let first = random.below((words.len() - length) as u64 + 1) as usize;
    words[first..first + length].to_vec()
}

/// Starts that don't fall.
fn starts(random: &mut Random, nodes: u32, links: usize) -> Vec<u32> {
    let mut starts: Vec<u32> = (1..nodes).map(|_| random.below(links as u64 + 1) as u32).collect();
    starts.extend([0, links as u32]);
    starts.sort_unstable();
    starts
}

/// Any weights, or the same words, each two of which are a very small number.
fn weights(random: &mut Random, words: &[u32], links: usize) -> Vec<f64> {
    if random.below(2) == 0 {
        return (0..links).map(|_| random.one_of(&[0.0, 0.25, 1.0, 2.0])).collect();
    }
    let first = 2 * random.below((words.len() / 2 - links) as u64 + 1) as usize;
    let number = |pair: &[u32]| f64::from_bits(u64::from(pair[0]) | u64::from(pair[1]) << 32);
    words[first..first + 2 * links].chunks(2).map(number).collect()
}
