//! Why a call was refused.
use std::error::Error;
use std::fmt::{Display, Formatter, Result as Written};

/// The first test that failed, in the order of the numbers.
#[derive(Clone, Copy, Debug, PartialEq, Eq, Hash)]
#[repr(u32)]
pub enum Refusal {
    /// More than 65,536 nodes.
    TooManyNodes = 1,
    /// More than 1,048,576 links, or more than 65,536 sources or targets.
    TooManyLinks = 2,
    /// A list has another length than stated.
    WrongLength = 3,
    /// Starts don't begin at 0, fall somewhere or don't end at the number of links, or a column is not below the node count.
    UnsoundRows = 4,
    /// A weight, of a dropped link too, is a NaN, infinite, below zero or above 1,048,576.
    UnsoundWeight = 5,
    /// Alpha is not in 0 to 1, max_pushes is above 1,000,000,000, adaptive_step is 0, lower_size is above upper_size, or epsilon,
    /// queue_threshold, raising_factor, lowering_factor or threshold_floor is not finite or below zero.
    UnsoundSettings = 6,
    /// A precision is not finite or below zero.
    UnsoundPrecision = 7,
}

impl Refusal {
    const ALL: [Self; 7] = [
        Self::TooManyNodes,
        Self::TooManyLinks,
        Self::WrongLength,
        Self::UnsoundRows,
        Self::UnsoundWeight,
        Self::UnsoundSettings,
        Self::UnsoundPrecision,
    ];

    /// The number that the library returns for it.
    pub fn number(self) -> u32 {
        self as u32
    }

    /// What was returned, where the number is 0.
    pub(crate) fn unless_done(number: u32) -> Result<(), Self> {
        match number {
            0 => Ok(()),
            _ => Err(Self::ALL[number as usize - 1]),
        }
    }
}

impl Display for Refusal {
    fn fmt(&self, out: &mut Formatter<'_>) -> Written {
        let reason = match self {
            Self::TooManyNodes => "more than 65,536 nodes",
            Self::TooManyLinks => "more than 1,048,576 links, or more than 65,536 sources or targets",
            Self::WrongLength => "a list has another length than stated",
            Self::UnsoundRows => "the starts of rows are not in order, or a column is not a node",
            Self::UnsoundWeight => "a weight is not from 0 to 1,048,576",
            Self::UnsoundSettings => {
                "alpha is not from 0 to 1, max_pushes is above 1,000,000,000, adaptive_step is 0, lower_size is above upper_size, \
                 or another setting is not from 0 up"
            }
            Self::UnsoundPrecision => "a precision is not from 0 up",
        };
        write!(out, "refused with {}: {reason}", self.number())
    }
}

impl Error for Refusal {}
