//! How often the thresholds of this copy's queues adapted, or could have, and what came of it: the patched queue notes each time.
use std::cell::Cell;

/// A threshold before and after it could adapt, and what decided on it.
struct Adaption {
    size: usize,
    upper: usize,
    lower: usize,
    floor: f64,
    before: f64,
    after: f64,
}

/// What an adaption can be, and when it is.
type Kind = (&'static str, fn(&Adaption) -> bool);

const KINDS: [Kind; 15] = [
    ("raised", |adaption| adaption.raises()),
    ("lowered", |adaption| adaption.is_short() && adaption.before > adaption.floor),
    ("kept by the floor", |adaption| adaption.is_short() && adaption.before <= adaption.floor),
    ("kept by both sizes", |adaption| !adaption.raises() && !adaption.is_short()),
    ("a queue of the upper size", |adaption| adaption.size == adaption.upper),
    ("of one more", |adaption| adaption.size == adaption.upper + 1),
    ("of the lower size", |adaption| adaption.size == adaption.lower),
    ("of one less", |adaption| adaption.size + 1 == adaption.lower),
    ("turned to zero", |adaption| adaption.before != 0.0 && adaption.after == 0.0),
    ("to minus zero", |adaption| adaption.after == 0.0 && adaption.after.is_sign_negative()),
    ("to infinity", |adaption| adaption.before.is_finite() && adaption.after.is_infinite()),
    ("to NaN", |adaption| !adaption.before.is_nan() && adaption.after.is_nan()),
    ("again from zero", |adaption| adaption.before == 0.0),
    ("from infinity", |adaption| adaption.before.is_infinite()),
    ("from NaN", |adaption| adaption.before.is_nan()),
];

thread_local! {
    /// How many adaptions were of each kind, how many there were in all, and the size of the queue at the last.
    static COUNTED: Cell<[u64; KINDS.len()]> = const { Cell::new([0; KINDS.len()]) };
    static ALL: Cell<u64> = const { Cell::new(0) };
    static LAST_SIZE: Cell<usize> = const { Cell::new(0) };
}

impl Adaption {
    fn raises(&self) -> bool {
        self.size > self.upper
    }

    /// Whether the threshold falls, if it is above the floor.
    fn is_short(&self) -> bool {
        !self.raises() && self.size < self.lower
    }
}

/// Counts an adaption: of a queue of this size, by the upper and the lower size and the floor, from one threshold to another.
pub fn note(size: usize, [upper, lower]: [usize; 2], floor: f64, [before, after]: [f64; 2]) {
    let adaption = Adaption { size, upper, lower, floor, before, after };
    let mut counted = COUNTED.get();
    for (count, (_, is_one)) in counted.iter_mut().zip(KINDS) {
        *count += u64::from(is_one(&adaption));
    }
    COUNTED.set(counted);
    ALL.set(ALL.get() + 1);
    LAST_SIZE.set(size);
}

/// Begins to count the kinds anew.
pub fn forget() {
    COUNTED.take();
}

/// How many adaptions were of each kind since then.
pub fn counts() -> Vec<(&'static str, u64)> {
    KINDS.iter().map(|kind| kind.0).zip(COUNTED.get()).collect()
}

/// How many there were, from the beginning.
pub fn all() -> u64 {
    ALL.get()
}

/// The size of the queue at the last.
pub fn last_size() -> usize {
    LAST_SIZE.get()
}
