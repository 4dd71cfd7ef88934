//! An answer, and the refusal numbers of documents 01 and 02.

use std::fmt;

pub const ACCEPTED: u8 = 0;
pub const OUT_OF_REACH: u8 = 1;
pub const BAD_POINT: u8 = 3;
pub const BAD_AMOUNT: u8 = 4;
pub const BAD_LENGTH: u8 = 5;
pub const NO_ROOM: u8 = 6;
pub const BAD_RECORD: u8 = 7;
pub const BAD_TEXT: u8 = 8;
pub const BAD_BOUNDS: u8 = 9;
pub const BAD_LATITUDE: u8 = 21;
pub const BAD_CIRCLE: u8 = 22;
pub const HALF_EMPTY: u8 = 23;

/// What a rectangle is refused with, in the order of the tests: a number is given exactly when what it says holds
/// and nothing before it does.
pub const OF_RECT: [u8; 4] = [OUT_OF_REACH, BAD_LATITUDE, BAD_CIRCLE, HALF_EMPTY];

/// Those of a rectangle whose numbers are in reach: why it is not valid.
pub const WHY_NOT_VALID: [u8; 3] = [BAD_LATITUDE, BAD_CIRCLE, HALF_EMPTY];

/// A refusal number (0: accepted) and, where a list's entry is refused, which one. A length, a room or a mark is no
/// entry's fault, and neither is what is wrong with an operand that is no list.
#[derive(Clone, Copy, PartialEq)]
pub struct Refusal {
    pub number: u8,
    /// counted from zero
    pub entry: Option<usize>,
}

impl Refusal {
    pub fn at(number: u8, entry: usize) -> Self {
        Refusal { number, entry: Some(entry) }
    }
}

impl From<u8> for Refusal {
    /// One of no entry.
    fn from(number: u8) -> Self {
        Refusal { number, entry: None }
    }
}

/// As answers and programs write it: `22 at 17`, or the number alone.
impl fmt::Display for Refusal {
    fn fmt(&self, f: &mut fmt::Formatter) -> fmt::Result {
        match self.entry {
            Some(entry) => write!(f, "{} at {entry}", self.number),
            None => write!(f, "{}", self.number),
        }
    }
}

/// A refusal and the words beside it, each with a space before.
pub struct Answer {
    pub refusal: Refusal,
    pub words: String,
}

impl Answer {
    /// The answer's line, without a newline.
    pub fn text(&self) -> String {
        format!("{}{}", self.refusal, self.words)
    }
}
