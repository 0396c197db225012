//! An input of the job program: its bytes, how they get to the program, and smaller inputs that show the same.
use crate::calls::smaller;
use runs::calls::call::Call;
use runs::jobs::bytes::{call_in, laid_out};
use runs::jobs::program::Way;
use std::fmt::{Debug, Formatter, Result};

#[derive(Clone)]
pub struct Input {
    pub bytes: Vec<u8>,
    pub way: Way,
}

impl Input {
    pub fn new(bytes: Vec<u8>) -> Self {
        Self { bytes, way: Way::Pipe }
    }

    /// A job that asks for a call on links.
    pub fn of(call: &Call) -> Self {
        Self::new(laid_out(call))
    }

    /// How many nodes the job has, where it has the shape of one.
    pub fn nodes(&self) -> Option<u32> {
        call_in(&self.bytes).map(|call| call.nodes)
    }
}

impl Debug for Input {
    fn fmt(&self, out: &mut Formatter<'_>) -> Result {
        const PRINTED: usize = 256;
        match call_in(&self.bytes) {
            Some(call) => write!(out, "{call:?}")?,
            None => write!(out, "no shape of a job")?,
        }
        write!(out, ", {} bytes, {:?}: ", self.bytes.len(), self.way)?;
        self.bytes.iter().take(PRINTED).try_for_each(|byte| write!(out, "{byte:02x}"))?;
        write!(out, "{}", if self.bytes.len() > PRINTED { "..." } else { "" })
    }
}

/// Of a job, those of smaller calls; of other bytes, fewer of them, and zeros in their places.
pub fn smaller(input: &Input) -> Vec<Input> {
    let with = |bytes: Vec<u8>| Input { bytes, way: input.way };
    if let Some(call) = call_in(&input.bytes) {
        return smaller::smaller(&call).iter().map(|call| with(laid_out(call))).collect();
    }
    let length = input.bytes.len();
    let cut = [length / 2, length.saturating_sub(16), length.saturating_sub(1)];
    let shorter = cut.into_iter().filter(|&shorter| shorter < length).map(|shorter| input.bytes[..shorter].to_vec());
    let zero = |place: usize| {
        let mut bytes = input.bytes.clone();
        bytes[place] = 0;
        bytes
    };
    let plainer = (0..length.min(56)).filter(|&place| input.bytes[place] != 0).map(zero);
    shorter.chain(plainer).map(with).collect()
}
