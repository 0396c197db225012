//! Hands the buffers of a call to its entry, one after the other, in the order of the parameters.
use crate::entries::{Pair, QueueBuffers, RowBuffers};
use Slice::{Real, Whole, Wide};

/// A buffer, as an entry is lent it.
pub enum Slice<'a> {
    Whole(&'a mut [u32]),
    Wide(&'a mut [u64]),
    Real(&'a mut [f64]),
}

pub struct Lending<'a, 'b>(pub &'b mut dyn Iterator<Item = Slice<'a>>);

impl<'a> Lending<'a, '_> {
    pub fn reals(&mut self) -> &'a mut [f64] {
        let Some(Real(slice)) = self.0.next() else { unreachable!("the buffers are made for the entry") };
        slice
    }

    pub fn wholes(&mut self) -> &'a mut [u32] {
        let Some(Whole(slice)) = self.0.next() else { unreachable!("the buffers are made for the entry") };
        slice
    }

    fn wides(&mut self) -> &'a mut [u64] {
        let Some(Wide(slice)) = self.0.next() else { unreachable!("the buffers are made for the entry") };
        slice
    }

    pub fn pair(&mut self) -> Pair<'a> {
        Pair { estimate: self.reals(), residual: self.reals() }
    }

    pub fn rows(&mut self) -> RowBuffers<'a> {
        RowBuffers { starts: self.wholes(), columns: self.wholes(), weights: self.reals() }
    }

    pub fn queue(&mut self) -> QueueBuffers<'a> {
        QueueBuffers { priorities: self.reals(), nodes: self.wholes(), queued: self.wides(), visited: self.wides() }
    }
}
