//! A question of the common region, and what is due for it.

use super::region;
use crate::base::answer::{Refusal, ACCEPTED, BAD_LENGTH, NO_ROOM};
use crate::base::roles::{self, Rect, Role};

/// The most rectangles that are taken, and the most numbers that a line or the output list may have:
/// one rectangle more.
pub const MOST_RECTS: usize = 512;
pub const MOST_NUMBERS: usize = 4 * (MOST_RECTS + 1);

/// A question: the numbers of the input list, and how many the output list has room for.
pub struct Question {
    pub room: usize,
    pub numbers: Vec<f64>,
}

/// The pieces that are due, or the refusal: the length, then each entry by itself, of which the first one that is bad
/// decides.
pub fn pieces(numbers: &[f64]) -> Result<Vec<Rect>, Refusal> {
    if numbers.len() % 4 != 0 || numbers.len() > 4 * MOST_RECTS {
        return Err(BAD_LENGTH.into());
    }
    let faults = faults(numbers);
    match faults.iter().position(|number| *number != ACCEPTED) {
        Some(entry) => Err(Refusal::at(faults[entry], entry)),
        None => Ok(region::pieces(&roles::rects(numbers))),
    }
}

/// What each entry by itself is refused with, or 0.
pub fn faults(numbers: &[f64]) -> Vec<u8> {
    roles::rects(numbers).iter().map(|rect| Role::Rect.fault(rect)).collect()
}

/// How many numbers the pieces of the list take, whatever the room. Of a refused list: none.
pub fn needed(numbers: &[f64]) -> usize {
    pieces(numbers).map_or(0, |pieces| 4 * pieces.len())
}

impl Question {
    /// The pieces, if there is room for them.
    pub fn decided(&self) -> Result<Vec<Rect>, Refusal> {
        let pieces = pieces(&self.numbers)?;
        if self.room < 4 * pieces.len() {
            return Err(NO_ROOM.into());
        }
        Ok(pieces)
    }
}
