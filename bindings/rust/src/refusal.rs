//! Refusals: the number of the question that a call answered with no, and where.

use crate::sys;
use std::fmt;

/// Why a call was refused. A refused call has changed nothing.
#[derive(Clone, Copy, Debug, PartialEq, Eq, Hash)]
pub struct Refusal {
    /// The number of the question, 1 to 12.
    pub number: u32,
    /// For 4 to 8 the first failing position in the list of links, or among the link points; for a list of trims the position of the one
    /// that is refused; otherwise 0.
    pub place: usize,
}

impl Refusal {
    /// The refusal in a surveyor's words, those of `mochaspit_text` in include/mochaspit.h, without number and place.
    pub fn reason(&self) -> &'static str {
        match self.number {
            1 => "a number is not finite, a train's length not above 0 or its top speed below 0, or a code is unknown",
            2 => "the path's record and columns do not belong together, or a list is empty or longer than its column",
            3 => "the path is finished: nothing can be joined to it, and it cannot be finished again",
            4 => "a link number is 0 or not in the table, or a link gets no new number or the number 0",
            5 => "a link does not follow the one before it, or its two neighbours on one side are the same link",
            6 => "a link of the table is not well formed",
            7 => "a link has no speed set for this train",
            8 => "a result is too large or no number, or a link's end is not beyond its beginning",
            9 => "the records do not fit in the columns or within their bounds",
            10 => "an offset lies outside the path or the list, or the path has no such link",
            11 => "no search may start from the index, no record is at it, or fewer records lie before it than are taken off",
            12 => "the path has no link to drop",
            _ => "no answer has this number",
        }
    }
}

impl fmt::Display for Refusal {
    fn fmt(&self, f: &mut fmt::Formatter<'_>) -> fmt::Result {
        write!(f, "refused with {}", self.number)?;
        if self.place > 0 || (4..=8).contains(&self.number) {
            write!(f, " at place {}", self.place)?;
        }
        write!(f, ": {}", self.reason())
    }
}

impl std::error::Error for Refusal {}

/// The answer of a call: done, or the refusal.
pub(crate) fn judged(answer: sys::Answer) -> Result<(), Refusal> {
    match answer.number {
        0 => Ok(()),
        number => Err(Refusal { number, place: answer.place }),
    }
}
