//! What the program writes for an input.

use super::region;
use crate::base::answer::{BAD_LENGTH, BAD_TEXT};
use crate::kinds::bbox::bounds::Bounds;
use crate::kinds::bbox::{read_text, text};
use crate::kinds::common::question::MOST_RECTS;

/// The most lines, and the most bytes of an input.
pub const MOST_LINES: usize = MOST_RECTS;
pub const MOST_BYTES: usize = 65_536;

/// All that the program writes for this standard input.
pub fn answer(input: &[u8]) -> String {
    match boxes(input) {
        Ok(boxes) => region::pieces(&boxes).into_iter().map(|piece| text::write(piece) + "\n").collect(),
        Err(refused) => refused,
    }
}

/// The boxes of the lines, or what refuses the input. No input at all is refused: a command that failed
/// must not select the whole globe. An input of too many bytes is not looked at. Lines are counted from 1, and the
/// refusal says that it counts lines: the entries of other lists are counted from zero.
fn boxes(input: &[u8]) -> Result<Vec<Bounds>, String> {
    let too_long = || format!("refused {BAD_LENGTH}\n");
    if input.len() > MOST_BYTES {
        return Err(too_long());
    }
    if input.is_empty() {
        return Err(format!("refused {BAD_TEXT}\n"));
    }
    let mut boxes = Vec::new();
    for line in input.split_inclusive(|byte| *byte == b'\n') {
        if boxes.len() == MOST_LINES {
            return Err(too_long());
        }
        match read_text(line.strip_suffix(b"\n").unwrap_or(line)) {
            Ok(bounds) => boxes.push(bounds),
            Err(number) => return Err(format!("refused {number} at line {}\n", boxes.len() + 1)),
        }
    }
    Ok(boxes)
}
