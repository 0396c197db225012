//! A node where a solve has ended, and whether a push is still due there, in the words of R-2 of docs/RULES.md.
use crate::entries::Settings;

/// What is left at the node, and the degree that its solve goes by: the out-degree forward, the in-degree backward.
#[derive(Clone, Copy)]
pub struct Left<'a> {
    pub residual: f64,
    pub degree: f64,
    pub settings: &'a Settings,
}

impl Left<'_> {
    /// Its degree if that is above 1, and otherwise 1.
    pub fn e(self) -> f64 {
        if self.degree > 1.0 {
            self.degree
        } else {
            1.0
        }
    }

    /// A residual that is NaN reaches nothing.
    pub fn reaches_epsilon(self) -> bool {
        self.residual >= self.settings.epsilon * self.e()
    }

    pub fn reaches_threshold(self) -> bool {
        self.residual / self.e() >= self.settings.queue_threshold
    }

    pub fn is_due(self) -> bool {
        self.reaches_epsilon() && self.reaches_threshold()
    }
}

/// The nodes where a solve has ended, by what is left at each and its degree.
pub fn nodes<'a>(residual: &'a [f64], degrees: &'a [f64], settings: &'a Settings) -> impl Iterator<Item = Left<'a>> + 'a {
    residual.iter().zip(degrees).map(move |(&residual, &degree)| Left { residual, degree, settings })
}
