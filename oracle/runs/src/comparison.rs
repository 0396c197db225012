//! Runs kinds of input through both sides. It stops at the first difference, with the smallest input that shows it.
use std::fmt::Debug;
use std::process::exit;
use std::sync::atomic::{AtomicUsize, Ordering::Relaxed};
use std::thread;
use std::time::{Duration, Instant};

/// How long a smaller input is looked for.
const PATIENCE: Duration = Duration::from_secs(40);

/// How many inputs are taken together where they are compared at once.
const TOGETHER: usize = 256;

pub struct Comparison {
    kinds: usize,
    inputs: u64,
    planted: Option<Planted>,
}

/// How many of the planted differences were found, and how many were not.
#[derive(Default)]
struct Planted {
    found: usize,
    missed: usize,
}

impl Comparison {
    pub fn new() -> Self {
        Self { kinds: 0, inputs: 0, planted: None }
    }

    /// A comparison with a difference planted in each kind: it goes on after each, and fails where it finds them all.
    pub fn of_planted() -> Self {
        Self { planted: Some(Planted::default()), ..Self::new() }
    }

    /// Compares every input of one kind. `difference` says what differs at an input, if anything; `smaller` lists
    /// inputs that are smaller than a given one, to be tried where it differs.
    pub fn kind<I: Clone + Debug>(
        &mut self,
        name: &str,
        inputs: impl Iterator<Item = I>,
        difference: impl Fn(&I) -> Option<String>,
        smaller: impl Fn(&I) -> Vec<I>,
    ) {
        let mut count = 0;
        for input in inputs {
            count += 1;
            if difference(&input).is_some() {
                return self.differing(name, count, input, difference, smaller);
            }
        }
        self.alike(name, count);
    }

    /// The same, with as many inputs at once as there are processors: for inputs that each take a process of their own.
    pub fn kind_at_once<I: Clone + Debug + Sync>(
        &mut self,
        name: &str,
        mut inputs: impl Iterator<Item = I>,
        difference: impl Fn(&I) -> Option<String> + Sync,
        smaller: impl Fn(&I) -> Vec<I>,
    ) {
        let mut count = 0;
        loop {
            let mut some: Vec<I> = inputs.by_ref().take(TOGETHER).collect();
            if some.is_empty() {
                return self.alike(name, count);
            }
            if let Some(place) = first(&some, |input| difference(input).is_some()) {
                let input = some.swap_remove(place);
                return self.differing(name, count + place as u64 + 1, input, difference, smaller);
            }
            count += some.len() as u64;
        }
    }

    fn differing<I: Clone + Debug>(
        &mut self,
        name: &str,
        count: u64,
        input: I,
        difference: impl Fn(&I) -> Option<String>,
        smaller: impl Fn(&I) -> Vec<I>,
    ) {
        let least = smallest(input, &difference, &smaller);
        println!("{name}: differs after {count} inputs, at the smallest of them {least:?}");
        println!("  {}", difference(&least).expect("the smallest input differs too"));
        self.differs();
    }

    fn alike(&mut self, name: &str, count: u64) {
        println!("{name}: {count} inputs, 0 differences");
        self.kinds += 1;
        self.inputs += count;
        if let Some(planted) = &mut self.planted {
            planted.missed += 1;
        }
    }

    /// Demands that each of the named things was reached by the inputs so far.
    pub fn reached(&mut self, name: &str, counts: &[(&str, u64)]) {
        let listed: Vec<String> = counts.iter().map(|(thing, count)| format!("{thing} {count}")).collect();
        println!("{name}: {}", listed.join(", "));
        if counts.iter().any(|(_, count)| *count == 0) {
            println!("  one of them was never reached");
            return self.differs();
        }
        self.kinds += 1;
    }

    fn differs(&mut self) {
        match &mut self.planted {
            Some(planted) => planted.found += 1,
            None => {
                println!("compare: {} passed, 1 failed", self.kinds);
                exit(1);
            }
        }
    }

    pub fn finish(self) {
        println!("compare: {} inputs in all", self.inputs);
        if let Some(Planted { found, missed }) = self.planted {
            println!("compare: {found} planted differences found, {missed} not");
            if missed == 0 {
                println!("compare: 0 passed, 1 failed");
                exit(1);
            }
        }
        println!("compare: {} passed, 0 failed", self.kinds);
    }
}

impl Default for Comparison {
    fn default() -> Self {
        Self::new()
    }
}

/// The first of the inputs that is found, by as many threads as there are processors.
fn first<I: Sync>(inputs: &[I], found: impl Fn(&I) -> bool + Sync) -> Option<usize> {
    let (next, least) = (AtomicUsize::new(0), AtomicUsize::new(inputs.len()));
    let look = || {
        // Places are handed out in rising order, so that nothing before the least one is left out.
        loop {
            let place = next.fetch_add(1, Relaxed);
            if place >= least.load(Relaxed) {
                return;
            }
            if found(&inputs[place]) {
                least.fetch_min(place, Relaxed);
            }
        }
    };
    thread::scope(|scope| {
        for _ in 0..thread::available_parallelism().map_or(1, usize::from) {
            scope.spawn(look);
        }
    });
    Some(least.into_inner()).filter(|&place| place < inputs.len())
}

/// Goes from a differing input to smaller ones that differ too, until none is left, or patience is at an end.
fn smallest<I: Clone>(input: I, difference: &impl Fn(&I) -> Option<String>, smaller: &impl Fn(&I) -> Vec<I>) -> I {
    let start = Instant::now();
    let mut least = input;
    while let Some(next) = smaller(&least).into_iter().find(|i| start.elapsed() < PATIENCE && difference(i).is_some()) {
        least = next;
    }
    least
}

/// Whether two numbers are the same, bit for bit; one NaN counts as any other.
pub fn same(a: f64, b: f64) -> bool {
    a.to_bits() == b.to_bits() || (a.is_nan() && b.is_nan())
}
