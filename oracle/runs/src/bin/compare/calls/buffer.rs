//! A buffer that a call was lent to write, and how its contents differ from what they should be.
use runs::calls::lending::Slice;
use runs::calls::outcome::{Contents, Outcome};
use runs::calls::shape::Kind;
use runs::comparison::same;
use runs::lent::{Lent, Word};
use Buffer::{Real, Whole, Wide};

pub enum Buffer {
    Whole(Lent<u32>),
    Wide(Lent<u64>),
    Real(Lent<f64>),
}

impl Buffer {
    pub fn patterned(kind: Kind, length: usize) -> Self {
        match kind {
            Kind::Whole => Whole(Lent::patterned(length)),
            Kind::Wide => Wide(Lent::patterned(length)),
            Kind::Real => Real(Lent::patterned(length)),
        }
    }

    pub fn lend(&mut self) -> Slice<'_> {
        match self {
            Whole(lent) => Slice::Whole(lent.slice_mut()),
            Wide(lent) => Slice::Wide(lent.slice_mut()),
            Real(lent) => Slice::Real(lent.slice_mut()),
        }
    }

    /// Where it does not hold what the call is to leave in the buffer at this place of those that it writes.
    pub fn difference(&self, expected: &Outcome, place: usize) -> Option<String> {
        match expected {
            Outcome::Refused(_) => self.unlike_before(),
            Outcome::Done { answer, .. } => self.unlike(answer.get(place)),
        }
    }

    /// Turns the last digit of its first number, if it has any.
    pub fn spoil(&mut self) {
        if let Real(lent) = self {
            if let Some(number) = lent.slice_mut().first_mut() {
                *number = turned(*number);
            }
        }
    }

    /// Whether it holds a quiet NaN and a signalling one.
    pub fn has_nans(&self) -> bool {
        let Real(lent) = self else { return false };
        let quiet = |number: &f64| number.to_bits() >> 51 & 1 == 1;
        let mut nans = lent.slice().iter().filter(|number| number.is_nan());
        nans.clone().any(quiet) && nans.any(|number| !quiet(number))
    }

    /// Where it is not as it was before the call.
    fn unlike_before(&self) -> Option<String> {
        let (guarded, altered) = match self {
            Whole(lent) => (lent.guarded(), lent.altered()),
            Wide(lent) => (lent.guarded(), lent.altered()),
            Real(lent) => (lent.guarded(), lent.altered()),
        };
        outside(guarded).or_else(|| altered.map(|place| format!("[{place}] was altered by a refusal")))
    }

    /// Where it does not hold what it should: contents of an answer, or else zeros.
    fn unlike(&self, contents: Option<&Contents>) -> Option<String> {
        match (self, contents) {
            (Whole(lent), Some(Contents::Whole(right))) => outside(lent.guarded()).or_else(|| {
                let place = lent.differs(right)?;
                Some(format!("[{place}] is {}, where {} is right", lent.slice()[place], right[place]))
            }),
            (Real(lent), Some(Contents::Real(right))) => outside(lent.guarded()).or_else(|| unlike_numbers(lent, right)),
            (Whole(lent), None) => not_cleared(lent),
            (Wide(lent), None) => not_cleared(lent),
            (Real(lent), None) => not_cleared(lent),
            _ => unreachable!("the contents are made for the entry"),
        }
    }
}

/// A number with its last digit turned.
pub fn turned(number: f64) -> f64 {
    f64::from_bits(number.to_bits() ^ 1)
}

/// Where a buffer holds another number than it should; one NaN counts as any other.
fn unlike_numbers(lent: &Lent<f64>, right: &[f64]) -> Option<String> {
    let place = lent.unlike(right, same)?;
    let (a, b) = (lent.slice()[place], right[place]);
    Some(format!("[{place}] is {:016x} ({a:?}), where {:016x} ({b:?}) is right", a.to_bits(), b.to_bits()))
}

fn not_cleared<T: Word>(lent: &Lent<T>) -> Option<String> {
    let nonzero = || lent.nonzero().map(|place| format!("[{place}] is not zero, in workspace"));
    outside(lent.guarded()).or_else(nonzero)
}

fn outside(guarded: bool) -> Option<String> {
    (!guarded).then(|| ": a word outside of it was written".to_string())
}
