//! The program `common`: its stream, and what the program answers to it: document 01's section on the
//! program as code. The pieces come from the reference of the common region. Records are read in order,
//! and the first fault decides: a short record or a wrong mark, then a record too many, then its numbers.

mod answer;
mod cases;
mod draw;

use answer::{answer, record, record_read, refused};

use crate::base::answer::{ACCEPTED, BAD_RECORD};
use crate::base::check::{drawn, Check, Tried};
use crate::base::roles::rects;
use crate::kind::Asked;
use crate::kinds::common::draw::short;
use crate::kinds::common::question::{needed, Question};
use crate::program::worked::held;
use crate::program::{self, Program};

/// The program, for a run on drawn streams.
pub const PROGRAM: Program = Program {
    name: "common",
    run_door: "streams",
    answer_door: "stream-answer",
    inputs: "streams",
    // The program `common_cases` has those at the edges.
    known: Vec::new,
    draw: draw::stream,
    answer,
    // Whatever was to come is missing.
    unread: || refused(BAD_RECORD),
    kinds: KINDS,
    kind,
    shown: program::hex,
    cases: cases::by_sort,
    checks: CHECKS,
};

const KINDS: &[&str] = &[
    "pieces 0", "pieces 1", "pieces 2", "pieces 3+", "refused 1", "refused 5", "refused 7", "refused 21",
    "refused 22", "refused 23",
];

/// By the first two words: of a refusal, its number, whichever record it is.
fn kind(answer: &str) -> &'static str {
    let first = answer.split_ascii_whitespace().take(2).collect::<Vec<_>>().join(" ");
    KINDS.iter().find(|kind| **kind == first).unwrap_or(&"pieces 3+")
}

const CHECKS: &[Check] = &[
    ("worked streams", || held(&[cases::all(), cases::beside()].concat(), answer)),
    ("worked records", || held(&cases::records(), record_read)),
    ("streams against the same lists", streams_as_lists),
];

/// A stream of at most 512 whole records with right marks is answered as the list of its numbers, in the
/// stream's words.
fn streams_as_lists() -> Tried {
    drawn("streams as lists", 5_000, |rng, tried| {
        let mut numbers = short(rng).numbers;
        numbers.truncate(numbers.len() / 4 * 4);
        let bytes: Vec<u8> = rects(&numbers).into_iter().flat_map(record).collect();
        let list = Question { room: needed(&numbers), numbers }.answer();
        // The stream has the same words, and one more before; of a refusal the number and the entry alone.
        let expected = match list.refusal.number {
            ACCEPTED => format!("pieces{}", list.words),
            _ => format!("refused {}", list.refusal),
        };
        let stream = answer(&bytes).split_ascii_whitespace().collect::<Vec<_>>().join(" ");
        tried.hold(stream == expected, "the stream answers", || format!("{stream:?}, the list {expected:?}"));
    })
}
