//! Records what the repaired Rust's work queue does: sequences of operations with the size after each, and every node
//! that is popped. `crates/queue_check` replays them through the proved queue.
//!
//! The recording is a list of records of 16 bytes, little-endian: what is done (u16), a node (u16), the size of the
//! queue afterwards (u32) and a number (f64).
use repaired::graph::WorkQueue;
use runs::random::Random;

const NODES: u64 = 65_536;
const UPPER: usize = 10_000;
const LOWER: usize = 100;
const FLOOR: f64 = 1e-12;

/// A sequence begins: the number is the threshold.
const START: u16 = 0;
/// The node is offered: the number is the priority.
const OFFER: u16 = 1;
/// Every node up to the node is offered, in rising order: the number is the priority.
const OFFER_UP_TO: u16 = 2;
/// A node is popped: the node is the one that came.
const POP: u16 = 3;
/// A pop that finds nobody.
const POP_NOBODY: u16 = 4;
/// The threshold adapts.
const ADAPT: u16 = 5;

/// A queue, with what is recorded of it. `threshold` follows the queue's own, which is private, so that offers can be
/// made right at it.
struct Recorder {
    queue: WorkQueue,
    threshold: f64,
    records: Vec<u8>,
    sequences: usize,
}

impl Recorder {
    fn note(&mut self, what: u16, node: usize, number: f64) {
        let node = u16::try_from(node).expect("a node of the queue");
        let size = u32::try_from(self.queue.len()).expect("at most 65,536 nodes");
        self.records.extend(what.to_le_bytes());
        self.records.extend(node.to_le_bytes());
        self.records.extend(size.to_le_bytes());
        self.records.extend(number.to_bits().to_le_bytes());
    }

    fn start(&mut self, threshold: f64) {
        self.queue = WorkQueue::new(threshold);
        self.threshold = threshold;
        self.sequences += 1;
        self.note(START, 0, threshold);
    }

    /// Offers a node. A degree of zero makes the residual the priority.
    fn offer(&mut self, node: u64, priority: f64) {
        self.queue.push_if_threshold(node as usize, priority, 0.0);
        self.note(OFFER, node as usize, priority);
    }

    fn offer_up_to(&mut self, last: u64, priority: f64) {
        for node in 0..=last {
            self.queue.push_if_threshold(node as usize, priority, 0.0);
        }
        self.note(OFFER_UP_TO, last as usize, priority);
    }

    fn pop(&mut self) {
        match self.queue.pop() {
            Some((node, _)) => self.note(POP, node, 0.0),
            None => self.note(POP_NOBODY, 0, 0.0),
        }
    }

    fn pop_all(&mut self) {
        while !self.queue.is_empty() {
            self.pop();
        }
        self.pop();
    }

    fn adapt(&mut self) {
        let size = self.queue.len();
        self.queue.adaptive_threshold(UPPER, LOWER);
        if size > UPPER {
            self.threshold *= 1.1;
        } else if size < LOWER && self.threshold > FLOOR {
            self.threshold *= 0.9;
        }
        self.note(ADAPT, 0, 0.0);
    }

    /// Two offers that tell where the threshold is: right below it, and at it.
    fn probe(&mut self, node: u64) {
        let below = f64::from_bits(self.threshold.to_bits().wrapping_sub(1));
        self.offer(node, below);
        self.offer(node, self.threshold);
    }

    /// A mix of operations on the first `nodes` nodes: of 16, `pops` are pops, one adapts, and the rest are offers of
    /// what `priority` gives.
    fn mix(&mut self, random: &mut Random, nodes: u64, length: u64, pops: u64, priority: impl Fn(&mut Random) -> f64) {
        for _ in 0..length {
            match random.below(16) {
                0 => self.adapt(),
                k if k <= pops => self.pop(),
                _ => {
                    let node = random.below(nodes);
                    let number = priority(random);
                    self.offer(node, number);
                }
            }
        }
    }
}

/// A number of any kind: every bit pattern is as likely as any other, and NaNs are not left out.
fn any(random: &mut Random) -> f64 {
    f64::from_bits(random.next())
}

const EQUAL: [f64; 4] = [0.25, 0.5, 0.5, 1.0];
const ZEROS: [f64; 6] = [0.0, -0.0, 0.0, -0.0, f64::from_bits(1), -f64::from_bits(1)];
const EXTREMES: [f64; 7] = [f64::INFINITY, f64::NEG_INFINITY, f64::NAN, f64::MAX, f64::MIN, f64::MIN_POSITIVE, 1.0];
const THRESHOLDS: [f64; 8] = [0.0, -0.0, f64::NEG_INFINITY, f64::from_bits(1), 1e-12, 0.5, f64::MAX, f64::INFINITY];

/// Mixes on few nodes, where ties and queued nodes are common; on zeros of both signs; on infinities, NaNs and the
/// largest numbers; on any numbers; and on many nodes.
fn mixes(r: &mut Recorder, random: &mut Random) {
    for round in 0..40u64 {
        let few = 1 + random.below(48);
        let length = 20 + random.below(400);
        let threshold = random.one_of(&[0.0, 0.25, 0.5, 0.75, 2.0]);
        r.start(threshold);
        r.mix(random, few, length, 4 + round % 5, |random| random.one_of(&EQUAL));
        r.pop_all();

        let threshold = random.one_of(&[0.0, -0.0]);
        r.start(threshold);
        r.mix(random, few, length, 6, |random| random.one_of(&ZEROS));
        r.pop_all();

        let threshold = random.one_of(&THRESHOLDS);
        r.start(threshold);
        r.mix(random, few, length, 6, |random| random.one_of(&EXTREMES));
        r.pop_all();

        let threshold = random.one_of(&THRESHOLDS);
        r.start(threshold);
        r.mix(random, 2_000, length, 5, any);
        r.pop_all();

        r.start(0.001 * random.unit());
        r.mix(random, NODES, length, 4, |random| random.unit() / (1 + random.below(50)) as f64);
        r.pop_all();
    }
    for pops in 2..8 {
        r.start(0.0);
        r.mix(random, 1 << (2 * pops), 4_999, pops, Random::unit);
    }
}

/// Thresholds that adapt: with more than 10,000 nodes and exactly as many, with fewer than 100 and exactly as many, and
/// down to the floor. Offers tell where the threshold is each time.
fn adaptions(r: &mut Recorder, random: &mut Random) {
    for size in [UPPER as u64, UPPER as u64 + 1, 20_000, NODES - 1, LOWER as u64 - 1, LOWER as u64] {
        for threshold in [0.25, random.unit(), 1e-3 * random.unit(), 0.0] {
            r.start(threshold);
            r.offer_up_to(size - 1, 0.75 + threshold);
            for turn in 0..20 {
                r.adapt();
                r.probe(NODES - 1 - turn);
                r.pop();
            }
        }
    }
    for threshold in [FLOOR, f64::from_bits(FLOOR.to_bits() + 1), 4.0 * FLOOR, FLOOR / 0.9] {
        r.start(threshold);
        for turn in 0..20 {
            r.adapt();
            r.probe(turn);
        }
        r.pop_all();
    }
}

/// All nodes at once, and then all of them popped in order.
fn full(r: &mut Recorder) {
    r.start(1.0);
    r.offer_up_to(NODES - 1, 1.0);
    r.offer_up_to(NODES - 1, 2.0);
    for _ in 0..4_000 {
        r.pop();
    }
}

pub fn recording() -> Vec<u8> {
    let mut random = Random::new(3);
    let mut recorder = Recorder { queue: WorkQueue::new(0.0), threshold: 0.0, records: Vec::new(), sequences: 0 };
    mixes(&mut recorder, &mut random);
    adaptions(&mut recorder, &mut random);
    full(&mut recorder);
    eprintln!("{} sequences, {} operations", recorder.sequences, recorder.records.len() / 16);
    recorder.records
}
