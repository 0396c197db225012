//! A call that takes vectors and alpha alone, of which the settings have the rest as well, and how it is drawn and damaged.
use super::drawn;
use runs::calls::entry::Entry;
use runs::entries::Settings;
use runs::random::Random;
use runs::recorded::layout::NODES;

pub struct Vectors {
    pub read: Vec<Vec<f64>>,
    pub settings: Settings,
    /// How long each list is lent, and last the buffer for the answer, if there is one.
    pub lengths: Vec<usize>,
}

impl Vectors {
    /// With so many buffers for the answer.
    pub fn new(read: Vec<Vec<f64>>, settings: Settings, answers: usize) -> Self {
        let lengths = vec![read[0].len(); read.len() + answers];
        Self { read, settings, lengths }
    }
}

/// Vectors of solves, drawn of these entries, or of numbers of every size and both signs.
pub fn drawn(random: &mut Random, entries: &[Entry], answers: usize) -> Vectors {
    let settings = drawn::settings(random);
    if random.below(2) == 0 {
        let solve = drawn::solve(random, entries[0]);
        let pairs = entries.iter().map(|&entry| drawn::other(&solve, entry).vectors());
        return Vectors::new(pairs.flatten().collect(), settings, answers);
    }
    let n = random.below(NODES as u64 + 1);
    let mut vector = |_| -> Vec<f64> {
        let number = |_| match random.below(3) {
            0 => random.one_of(&[0.0, -0.0, 5e-324, -f64::MIN_POSITIVE, f64::MAX, -f64::MAX, 1.0]),
            1 => random.unit() - 0.5,
            _ => f64::from_bits(random.below(f64::INFINITY.to_bits())) * random.one_of(&[1.0, -1.0]),
        };
        (0..n).map(number).collect()
    };
    let read = (0..2 * entries.len()).map(&mut vector).collect();
    Vectors::new(read, settings, answers)
}

/// Every length that is one off but the first, which states it, and every kind of alpha that is refused, with the number.
pub fn refused(random: &mut Random, read: &[&[f64]], answers: usize) -> Vec<(Vectors, u32)> {
    let mut sound = || {
        let settings = Settings { alpha: 0.5, max_pushes: 10, ..drawn::settings(random) };
        Vectors::new(read.iter().map(|vector| vector.to_vec()).collect(), settings, answers)
    };
    let mut found = Vec::new();
    for list in 1..read.len() + answers {
        for by in [-1, 1] {
            let mut call = sound();
            call.lengths[list] = call.lengths[list].saturating_add_signed(by);
            found.push((call, 3));
        }
    }
    for alpha in [-5e-324, 1.0000000000000002, f64::INFINITY, f64::NAN] {
        let mut call = sound();
        call.settings.alpha = alpha;
        found.push((call, 6));
    }
    found
}
