//! A question of boxes, and what is due for it.

use std::fmt;

use super::bounds::{can_be_read, in_limits, seam_read, Bounds};
use super::text;
use crate::base::answer::{BAD_BOUNDS, BAD_TEXT, NO_ROOM};
use crate::base::words;
use crate::kind::Arm;

/// The most bytes that the output text of a question may have.
pub const MOST_ROOM: usize = 99;

/// A text of more bytes than this is a long one: nothing but spaces makes it so long.
pub const SHORT_TEXT: usize = 300;

pub const LONG_TEXT: Arm = Arm::of("a long text");

/// Which of the three questions.
#[derive(Clone, Copy, PartialEq)]
pub enum Way {
    Read,
    Write,
    Rect,
}

/// A question.
pub enum Question {
    Read { text: Vec<u8> },
    Write { room: usize, sides: Sides },
    Rect { sides: Sides },
}

/// A whole number of any length, as a question writes it: a minus or none, then digits without a needless
/// zero before them.
#[derive(Clone)]
pub struct Whole(String);

impl Whole {
    pub fn read(word: &[u8]) -> Option<Whole> {
        let digits = word.strip_prefix(b"-").unwrap_or(word);
        words::is_whole(digits).then(|| Whole(String::from_utf8_lossy(word).into_owned()))
    }

    /// The number that is written so.
    pub fn of(text: &str) -> Whole {
        Whole::read(text.as_bytes()).expect("a whole number")
    }

    /// None: it has a size that is beyond every limit by far.
    pub fn value(&self) -> Option<i64> {
        self.0.parse().ok()
    }
}

impl fmt::Display for Whole {
    fn fmt(&self, f: &mut fmt::Formatter) -> fmt::Result {
        f.write_str(&self.0)
    }
}

impl From<i64> for Whole {
    fn from(value: i64) -> Self {
        Whole(value.to_string())
    }
}

/// The four numbers of a box, as a question writes them.
pub type Sides = [Whole; 4];

/// The box of a question's numbers, or 9: the writer's test.
pub fn box_of(sides: &Sides) -> Result<Bounds, u8> {
    let value = |at: usize| sides[at].value().ok_or(BAD_BOUNDS);
    let bounds = [value(0)?, value(1)?, value(2)?, value(3)?];
    if can_be_read(bounds) {
        Ok(bounds)
    } else {
        Err(BAD_BOUNDS)
    }
}

/// The text of a box, if there is room for it.
pub fn text_of(sides: &Sides, room: usize) -> Result<String, u8> {
    let text = text::write(box_of(sides)?);
    if text.len() <= room {
        Ok(text)
    } else {
        Err(NO_ROOM)
    }
}

/// How many bytes the text of a box takes, whatever the room. Of a refused one: none.
pub fn length_needed(sides: &Sides) -> usize {
    box_of(sides).map_or(0, |bounds| text::write(bounds).len())
}

/// The numbers of a box from their words.
pub fn read_sides(words: &[&[u8]]) -> Option<Sides> {
    let sides: Vec<Whole> = words.iter().map(|word| Whole::read(word)).collect::<Option<_>>()?;
    sides.try_into().ok()
}

/// What a text says: 8 is decided on the whole text, then 9 on its numbers.
pub fn read_text(text: &[u8]) -> Result<Bounds, u8> {
    let numbers = text::array(text).map_err(|_| BAD_TEXT)?;
    if in_limits(numbers) {
        Ok(seam_read(numbers))
    } else {
        Err(BAD_BOUNDS)
    }
}
