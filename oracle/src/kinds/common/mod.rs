//! The question `common ROOM | ..`: the common region of a list of rectangles. The crate has no such function:
//! the expected pieces come from a reference of our own (`region.rs`).

pub mod draw;
mod places;
pub mod question;
pub mod region;
mod stored;
mod worked;

use std::f64::consts::PI;

use question::{faults, Question, MOST_NUMBERS};

use crate::base::answer::{Answer, ACCEPTED, BAD_LENGTH, NO_ROOM, OF_RECT};
use crate::base::rng::Rng;
use crate::base::roles::Rect;
use crate::base::words;
use crate::kind::arms::{hits, named, Row};
use crate::kind::spoils::OF_LISTS;
use crate::kind::worked::written;
use crate::kind::{Arm, Asked, Family, Kind, Spoil, Stored, Wanted, LONG_LIST, SHORT};

pub const FAMILY: Family =
    Family { checks: places::CHECKS, ..Family::new(|| vec![&Common], || written(worked::WORKED)) };

const NAME: &str = "common";

/// What each number of the output list is before.
const BEFORE: f64 = f64::from_bits(0x4045_0000_0000_0000);

impl Asked for Question {
    fn line(&self) -> String {
        format!("{NAME} {} |{}", self.room, words::asked(&self.numbers))
    }

    /// A refusal writes nothing, and what lies after the last piece stays.
    fn answer(&self) -> Answer {
        let mut output = vec![BEFORE; self.room];
        let refused = |refusal| (refusal, Vec::new());
        let (refusal, pieces) = self.decided().map_or_else(refused, |pieces| (ACCEPTED.into(), pieces));
        output[..4 * pieces.len()].copy_from_slice(pieces.as_flattened());
        Answer { refusal, words: format!(" {}{}", pieces.len(), words::answered(&output)) }
    }

    fn refusal(&self) -> u8 {
        self.decided().err().map_or(ACCEPTED, |refusal| refusal.number)
    }

    /// Of a refused list those of its bad entries, and its length.
    fn arms(&self) -> Vec<Arm> {
        let mut hit = match self.decided() {
            Ok(pieces) => hits(ARMS, &(self.numbers.len(), pieces)),
            Err(refusal) => {
                refusal.entry.map_or(Vec::new(), |at| hits(BAD_ENTRY, &(at, faults(&self.numbers))))
            }
        };
        if self.numbers.len() / 4 > SHORT {
            hit.push(LONG_LIST);
        }
        hit
    }

    fn numbers(&self) -> Option<Vec<f64>> {
        Some(self.numbers.clone())
    }
}

/// Of the count of numbers, and the pieces.
const ARMS: &[Row<(usize, Vec<Rect>)>] = &[
    ("no pieces", |(_, pieces)| pieces.is_empty()),
    ("one piece", |(_, pieces)| pieces.len() == 1),
    ("two pieces", |(_, pieces)| pieces.len() == 2),
    ("three or more pieces", |(_, pieces)| pieces.len() > 2),
    ("a piece over the seam", |(_, pieces)| pieces.iter().any(|[_, _, lo, hi]| lo > hi)),
    ("a piece all round", |(_, pieces)| pieces.iter().any(|[_, _, lo, hi]| [*lo, *hi] == [-PI, PI])),
    ("an empty list", |(count, _)| *count == 0),
];

/// Of the entry that is refused, and what each entry by itself is refused with.
const BAD_ENTRY: &[Row<(usize, Vec<u8>)>] = &[
    ("of several entries the first is refused", |(at, faults)| *at == 0 && faults.len() > 1),
    ("a middle entry is refused", |(at, faults)| *at > 0 && at + 1 < faults.len()),
    ("of several entries the last is refused", |(at, faults)| *at > 0 && at + 1 == faults.len()),
    ("a later entry is bad in another way", |(at, faults)| {
        faults[at + 1..].iter().any(|number| ![ACCEPTED, faults[*at]].contains(number))
    }),
];

struct Common;

impl Kind for Common {
    fn name(&self) -> &'static str {
        NAME
    }

    fn refusals(&self) -> Vec<u8> {
        [&OF_RECT[..], &[BAD_LENGTH, NO_ROOM]].concat()
    }

    fn arms(&self) -> Vec<Arm> {
        named(ARMS).chain(named(BAD_ENTRY)).collect()
    }

    fn read(&'static self, words: &[&[u8]]) -> Option<Box<dyn Asked>> {
        let [room, list @ ..] = words else { return None };
        let room = words::whole(room, MOST_NUMBERS)?;
        Some(Box::new(Question { room, numbers: words::list(list, MOST_NUMBERS)? }))
    }

    fn draw(&'static self, rng: &mut Rng, _: Wanted) -> Box<dyn Asked> {
        Box::new(draw::short(rng))
    }

    fn stored(&'static self, rng: &mut Rng) -> Stored {
        stored::of(rng)
    }

    fn long_arm(&self) -> Option<Arm> {
        Some(LONG_LIST)
    }

    fn draw_long(&'static self, rng: &mut Rng) -> Box<dyn Asked> {
        Box::new(draw::long(rng))
    }

    fn spoils(&self) -> &'static [Spoil] {
        OF_LISTS
    }
}
