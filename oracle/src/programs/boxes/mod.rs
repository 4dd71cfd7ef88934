//! The program `boxes`: bbox arrays on its standard input, one a line, and their common region as bbox
//! arrays, one a line. Lines are read in order, and the first fault decides. The region comes from a
//! reference over whole numbers (`region.rs`): no degree is ever a double here, so an edge that the
//! program rounded would show.

mod answer;
mod cases;
mod draw;
mod known;
mod region;
mod worked;

use answer::answer;

use crate::base::answer::BAD_RECORD;
use crate::base::check::{drawn, Check, Tried};
use crate::base::roles::Rect;
use crate::kinds::bbox::bounds::{rect_of, Bounds};
use crate::kinds::common;
use crate::program::{self, Program};

/// The program, for a run on drawn inputs.
pub const PROGRAM: Program = Program {
    name: "boxes",
    run_door: "boxes",
    answer_door: "boxes-answer",
    inputs: "inputs",
    known: known::all,
    draw: draw::input,
    answer,
    // Whatever was to come is missing.
    unread: || format!("refused {BAD_RECORD}\n"),
    kinds: KINDS,
    kind,
    shown: program::printable,
    cases: cases::by_sort,
    checks: CHECKS,
};

const CHECKS: &[Check] = &[
    ("worked inputs of boxes", || program::worked::held(&worked::all(), answer)),
    ("inputs of boxes against the same rectangles", inputs_as_rectangles),
];

/// The region of boxes by whole numbers, turned into radians piece by piece, is the common region of the
/// boxes turned into radians.
fn inputs_as_rectangles() -> Tried {
    drawn("inputs as rectangles", 5_000, |rng, tried| {
        let count = rng.below(20);
        let boxes = draw::boxes(rng, count);
        let radians = |boxes: &[Bounds]| -> Vec<Rect> { boxes.iter().map(|b| rect_of(*b)).collect() };
        let (pieces, expected) = (radians(&region::pieces(&boxes)), common::region::pieces(&radians(&boxes)));
        tried.hold(pieces == expected, "boxes", || format!("{boxes:?}: {pieces:?}, not {expected:?}"));
    })
}

const KINDS: &[&str] =
    &["nothing", "one piece", "two pieces", "three or more pieces", "refused 5", "refused 8", "refused 9"];

fn kind(answer: &str) -> &'static str {
    if let Some(kind) = KINDS.iter().find(|kind| kind.starts_with("refused") && answer.starts_with(**kind)) {
        return kind;
    }
    KINDS[answer.lines().count().min(3)]
}
