//! Bit patterns of f64 at which a square root can go wrong.
use crate::random::Random;

const DIGITS: u64 = (1 << 52) - 1;
const SIGN: u64 = 1 << 63;

/// A pattern as it is printed where two sides differ.
#[derive(Clone, Copy)]
pub struct Pattern(pub u64);

impl std::fmt::Debug for Pattern {
    fn fmt(&self, out: &mut std::fmt::Formatter<'_>) -> std::fmt::Result {
        write!(out, "{:016x} ({:e})", self.0, f64::from_bits(self.0))
    }
}

/// Patterns with fewer digits set, or with an exponent nearer to that of 1.
pub fn smaller(p: &Pattern) -> Vec<Pattern> {
    let (field, digits) = (p.0 >> 52 & 0x7ff, p.0 & DIGITS);
    let mut found = Vec::new();
    for bit in 0..52 {
        if digits >> bit & 1 == 1 {
            found.push(Pattern(p.0 & !(1 << bit)));
        }
    }
    let nearer = |f: u64| if f > 0x3ff { f - 1 } else { f + 1 };
    if field != 0x3ff && field != 0x7ff {
        found.push(Pattern(p.0 & SIGN | nearer(field) << 52 | digits));
    }
    found
}

/// Both signs of every exponent, with the digits' field at both its ends and in its middle.
pub fn exponents() -> impl Iterator<Item = Pattern> {
    (0..0x1000u64).flat_map(|top| {
        (0..16)
            .flat_map(|d| [d, DIGITS - d, (1 << 51) + d, (1 << 51) - 1 - d])
            .map(move |digits| Pattern(top << 52 | digits))
    })
}

/// Zeros, infinities, and NaNs of every kind, both signs.
pub fn specials(random: &mut Random) -> Vec<Pattern> {
    let mut found = Vec::new();
    for sign in [0, SIGN] {
        found.push(Pattern(sign));
        found.push(Pattern(sign | 0x7ff << 52));
        for bit in 0..52 {
            found.push(Pattern(sign | 0x7ff << 52 | 1 << bit));
        }
        for _ in 0..1000 {
            found.push(Pattern(sign | 0x7ff << 52 | random.next() & DIGITS | 1));
        }
    }
    found
}

/// Subnormal numbers: the smallest and the largest `count`, and as many random ones of every length.
pub fn subnormals(random: &mut Random, count: u64) -> Vec<Pattern> {
    let mut found: Vec<Pattern> = (1..=count).map(Pattern).collect();
    found.extend((0..count).map(|d| Pattern(DIGITS - d)));
    found.extend((0..count).map(|_| Pattern(random.next() & DIGITS >> random.below(52) | 1)));
    found
}

/// Squares that an f64 holds exactly, and their neighbours: there the root has no rest, or the smallest one.
pub fn squares(random: &mut Random, count: u64) -> Vec<Pattern> {
    let mut found = Vec::new();
    for _ in 0..count {
        let root = random.next() >> (38 + random.below(26));
        let scale = 2f64.powi(2 * (random.below(500) as i32 - 250));
        let square = ((root * root) as f64 * scale).to_bits();
        found.extend((0..7).map(|near| Pattern((square + near).saturating_sub(3))));
    }
    found
}

/// Numbers next to the square of a number halfway between two f64: there rounding is decided by the last digits.
pub fn halfway(random: &mut Random, count: u64) -> Vec<Pattern> {
    let mut found = Vec::new();
    for _ in 0..count {
        let root = (1u128 << 53) + u128::from(random.next() >> 11);
        let odd = 2 * root + 1;
        let square = odd * odd;
        let drop = 128 - square.leading_zeros() - 53;
        let digits = (square >> drop) as u64 & DIGITS;
        let field = 1 + random.below(0x7fd);
        let near = (field << 52 | digits).saturating_sub(2);
        found.extend((0..5).map(|step| Pattern(near + step)));
    }
    found
}
