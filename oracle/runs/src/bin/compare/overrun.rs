//! Calls that are told that a list is one word longer than it is, or begins one word earlier: the library then reads or writes
//! where nothing may, and the program has to die of it. Where it comes to its end, the fences are worth nothing.
use runs::entries::{self, Rows};
use runs::fenced::Fence;
use runs::lent::{self, Lent};
use std::slice::{from_raw_parts, from_raw_parts_mut};

/// `written-behind`, `read-behind`, `written-before` or `read-before`.
pub fn done(name: &str) {
    let (touched, side) = name.split_once('-').expect("what is done, and where");
    lent::fence(if side == "behind" { Fence::Behind } else { Fence::Before });
    let (starts, columns, weights) = (Lent::holding(&[0, 1, 2, 2]), Lent::holding(&[1, 2]), Lent::holding(&[0.5, 1.0]));
    let given = Rows { n: 3, starts: starts.slice(), columns: columns.slice(), weights: weights.slice() };
    let mut degrees = Lent::<f64>::patterned(if side == "behind" { 2 } else { 3 });
    let earlier = usize::from(side == "before");
    // Not sound, which is what it is for.
    let number = unsafe {
        match touched {
            "written" => {
                let first = degrees.slice_mut().as_mut_ptr().wrapping_sub(earlier);
                entries::row_sums(given, from_raw_parts_mut(first, 3))
            }
            "read" => {
                let first = degrees.slice().as_ptr().wrapping_sub(earlier);
                entries::compute_residual_norm(from_raw_parts(first, degrees.slice().len() + 1)) as u32
            }
            _ => panic!("written or read"),
        }
    };
    println!("overrun: nothing stopped it: {number}");
}
