//! Drawing streams: records of rectangles that have to do with one another, whole or damaged. Most are of
//! 0 to 8 records, one in 50 is of 500 to 513, one in 100 of 514 or more.

use super::answer::{marked, record, MARK, RECORD};
use crate::base::answer::WHY_NOT_VALID;
use crate::base::rng::Rng;
use crate::base::roles::REACH;
use crate::draw::{bad_rect, OUTSIDE};
use crate::kind::SHORT;
use crate::kinds::common::draw;
use crate::kinds::common::question::MOST_RECTS;

/// The stream at this place of a run.
pub fn stream(rng: &mut Rng, place: usize) -> Vec<u8> {
    let count = match place % 100 {
        99 => MOST_RECTS + 2 + rng.below(20),
        24 | 74 if rng.percent(40) => MOST_RECTS + rng.below(2),
        24 | 74 => MOST_RECTS - 12 + rng.below(14),
        _ => rng.below(SHORT + 1),
    };
    let rects = if count > SHORT { draw::many(rng, count) } else { draw::few(rng, count) };
    let mut bytes = rects.into_iter().flat_map(record).collect();
    if rng.percent(if count > SHORT { 25 } else { 40 }) {
        // Two faults now and then: the first one decides.
        for _ in 0..rng.pick(&[1, 1, 1, 2]) {
            let (_, damage) = rng.pick(DAMAGES);
            damage(&mut bytes, rng);
        }
    }
    bytes
}

/// A way to damage a stream. What needs a record leaves a stream without one as it is.
type Damage = fn(&mut Vec<u8>, &mut Rng);

const DAMAGES: &[(&str, Damage)] = &[
    ("cut off at any byte", |bytes, rng| bytes.truncate(rng.below(bytes.len() + 1))),
    ("cut off within the last record", |bytes, rng| {
        bytes.truncate(bytes.len().saturating_sub(1 + rng.below(RECORD)))
    }),
    ("bytes after the last record", trailing),
    ("a wrong mark", |bytes, rng| {
        let at = rng.below(MARK.len());
        let byte = match rng.below(3) {
            0 => MARK[at] ^ 1 << rng.below(8),
            1 => rng.pick(&[0x00, 0x30, 0x32, 0x51, 0x53, 0x72, 0xFF, MARK[1 - at]]),
            _ => rng.bits() as u8,
        };
        change(bytes, rng, |record, _| record[at] = byte);
    }),
    ("a number out of reach", |bytes, rng| {
        let bits = rng.pick(OUTSIDE);
        change(bytes, rng, |record, rng| put(record, rng.below(4), bits));
    }),
    ("a number at the end of reach", |bytes, rng| {
        let bits = rng.pick(&[REACH, -REACH]).to_bits();
        change(bytes, rng, |record, rng| put(record, rng.below(4), bits));
    }),
    ("a rectangle that is not valid", |bytes, rng| {
        let number = rng.pick(&WHY_NOT_VALID);
        let rect = bad_rect(rng, number);
        change(bytes, rng, |record, _| record.copy_from_slice(&marked(MARK, rect)));
    }),
    ("any byte another", |bytes, rng| {
        let byte = rng.bits() as u8;
        change(bytes, rng, |record, rng| record[rng.below(RECORD)] = byte);
    }),
    ("a byte lost", |bytes, rng| {
        if !bytes.is_empty() {
            bytes.remove(rng.below(bytes.len()));
        }
    }),
    ("a byte too many", |bytes, rng| bytes.insert(rng.below(bytes.len() + 1), rng.bits() as u8)),
    ("noise", |bytes, rng| *bytes = (0..rng.below(3 * RECORD)).map(|_| rng.bits() as u8).collect()),
];

/// Changes one record: the last one, the first one, the one that is too many, or any.
fn change(bytes: &mut [u8], rng: &mut Rng, with: impl Fn(&mut [u8], &mut Rng)) {
    let count = bytes.len() / RECORD;
    if count == 0 {
        return;
    }
    let at = match rng.below(5) {
        0 => count - 1,
        1 => 0,
        2 if count > MOST_RECTS => MOST_RECTS,
        _ => rng.below(count),
    };
    with(&mut bytes[at * RECORD..(at + 1) * RECORD], rng);
}

/// Puts a bit pattern in place of a record's number.
fn put(record: &mut [u8], number: usize, bits: u64) {
    let start = MARK.len() + 8 * number;
    record[start..start + 8].copy_from_slice(&bits.to_le_bytes());
}

/// Fewer bytes than a record has: noise, the beginning of a good record, or zeros.
fn trailing(bytes: &mut Vec<u8>, rng: &mut Rng) {
    let count = 1 + rng.below(RECORD - 1);
    let more = match rng.below(3) {
        0 => (0..count).map(|_| rng.bits() as u8).collect(),
        1 => record([0.0, 1.0, -1.0, 1.0])[..count].to_vec(),
        _ => vec![0; count],
    };
    bytes.extend(more);
}
