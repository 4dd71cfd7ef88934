//! What the program writes for a stream.

use crate::base::answer::{Refusal, ACCEPTED, BAD_LENGTH, BAD_RECORD};
use crate::base::roles::{plain, Rect, Role};
use crate::base::words;
use crate::kinds::common::question::MOST_RECTS;
use crate::kinds::common::region;

/// How a record begins, and how many bytes it has: the mark, then four little-endian doubles.
pub const MARK: [u8; 2] = [0x52, 0x31];
pub const RECORD: usize = MARK.len() + 4 * 8;

/// A rectangle as a record.
pub fn record(rect: Rect) -> Vec<u8> {
    marked(MARK, rect)
}

/// A rectangle as a record with this mark, right or wrong.
pub fn marked(mark: [u8; 2], rect: Rect) -> Vec<u8> {
    [&mark[..], rect.map(|x| x.to_bits().to_le_bytes()).as_flattened()].concat()
}

pub fn refused(refusal: impl Into<Refusal>) -> String {
    format!("refused {}\n", refusal.into())
}

/// All that the program writes for this standard input.
pub fn answer(bytes: &[u8]) -> String {
    all_records(bytes).map_or_else(refused, |rects| pieces(&region::pieces(&rects)))
}

/// What the record at the start of these bytes is read as: its rectangle, negative zeros as zeros, in the
/// words of a list of one piece, or its refusal.
pub fn record_read(bytes: &[u8]) -> String {
    let rect = bytes.get(..RECORD).and_then(numbers_of);
    match rect.map(|rect| (Role::Rect.fault(&rect), rect)) {
        Some((ACCEPTED, rect)) => pieces(&[rect.map(plain)]),
        Some((number, _)) => refused(number),
        None => refused(BAD_RECORD),
    }
}

/// The rectangles of the records, or the first fault. Where it is a rectangle's, it says which record that is.
fn all_records(bytes: &[u8]) -> Result<Vec<Rect>, Refusal> {
    let mut rects = Vec::new();
    for record in bytes.chunks(RECORD) {
        let rect = numbers_of(record).ok_or(BAD_RECORD)?;
        if rects.len() == MOST_RECTS {
            return Err(BAD_LENGTH.into());
        }
        match Role::Rect.fault(&rect) {
            ACCEPTED => rects.push(rect),
            number => return Err(Refusal::at(number, rects.len())),
        }
    }
    Ok(rects)
}

/// The numbers of a whole record with the right mark.
fn numbers_of(record: &[u8]) -> Option<Rect> {
    let bytes = record.strip_prefix(&MARK)?;
    let number = |at: usize| Some(f64::from_le_bytes(bytes.get(8 * at..8 * at + 8)?.try_into().ok()?));
    Some([number(0)?, number(1)?, number(2)?, number(3)?])
}

fn pieces(pieces: &[Rect]) -> String {
    let lines: String = pieces.iter().map(|piece| words::asked(piece)[1..].to_string() + "\n").collect();
    format!("pieces {}\n{lines}", pieces.len())
}
