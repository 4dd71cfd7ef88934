//! The stored questions of the common region: lists that are special by their kind, each with several
//! rooms, bad entries everywhere, the longest lists, and lines that are no question.

use std::f64::consts::{FRAC_PI_2, PI};

use super::question::{needed, Question, MOST_NUMBERS, MOST_RECTS};
use crate::base::answer::{BAD_CIRCLE, OF_RECT};
use crate::base::rng::Rng;
use crate::base::roles::{Rect, EMPTY, FULL, NEXT_TO_SEAM};
use crate::draw::bad_rect as bad;
use crate::draw::rect::FAULTY;
use crate::kind::{boxed, Stored};

/// Longitudes that zones are made of: wide ones, nearly full ones, single points, some over the seam.
const ARCS: &[[f64; 2]] = &[
    [-1.0, 1.0],
    [1.0, -1.0],
    [2.0, 1.0],
    [0.5, 0.25],
    [-2.0, 3.0],
    [3.0, -3.0],
    [-PI, PI],
    [NEXT_TO_SEAM, PI],
    [PI, NEXT_TO_SEAM],
    [PI, -NEXT_TO_SEAM],
    [NEXT_TO_SEAM, -NEXT_TO_SEAM],
    [-NEXT_TO_SEAM, NEXT_TO_SEAM],
    [0.0, -5e-324],
    [5e-324, -0.0],
    [-5e-324, 5e-324],
    [0.0, PI],
    [PI, 0.0],
    [PI, PI],
    [1.0, 1.0],
];

pub fn of(rng: &mut Rng) -> Stored {
    let special = [pairs(), each_room(), at_each_position(rng), two_bad(rng), bad_far_on(rng), poles()];
    Stored {
        special: boxed(special.into_iter().flatten()),
        each_arm: 6,
        free: 60,
        longest: boxed(longest(rng)),
        no_questions: no_questions(),
        spoils: &[],
        last: boxed([nested()]),
    }
}

/// A list with as much room as its pieces take.
fn fitting(rects: &[Rect]) -> Question {
    let numbers = rects.concat();
    Question { room: needed(&numbers), numbers }
}

fn zone([lo, hi]: [f64; 2]) -> Rect {
    [0.0, 1.0, lo, hi]
}

/// Each longitude alone, and with each other one: of these one order, by turns.
fn pairs() -> Vec<Question> {
    let alone = ARCS.iter().map(|arc| fitting(&[zone(*arc)]));
    let paired =
        (0..ARCS.len()).flat_map(|a| (0..a).map(move |b| if (a + b) % 2 == 0 { [a, b] } else { [b, a] }));
    alone.chain(paired.map(|pair| fitting(&pair.map(|at| zone(ARCS[at]))))).collect()
}

/// Lists of no piece up to four, each with every room up to one number more than needed.
fn each_room() -> Vec<Question> {
    let lists: &[&[Rect]] = &[
        &[],
        &[EMPTY],
        &[FULL],
        &[zone([-1.0, 1.0]), zone([2.0, 3.0])],
        &[zone([-1.0, 1.0])],
        &[zone([-1.0, 1.0]), zone([1.0, -1.0])],
        &[zone([2.0, 1.0]), FULL, zone([0.5, 0.25])],
        &[zone([1.0, 0.5]), zone([2.0, 1.5]), zone([-1.0, -2.0])],
        &[zone([1.0, 0.5]), zone([2.0, 1.0]), zone([PI, 3.0]), zone([-1.0, PI])],
    ];
    let rooms = |rects: &&[Rect]| {
        let numbers = rects.concat();
        (0..=needed(&numbers) + 1).map(move |room| Question { room, numbers: numbers.clone() })
    };
    lists.iter().flat_map(rooms).collect()
}

/// Four zones with four pieces.
const FOUR: [Rect; 4] =
    [[0.0, 1.0, 2.0, 1.0], [0.0, 1.0, 0.5, 0.25], [0.0, 1.0, 0.25, -0.5], [0.0, 1.0, -1.0, -1.5]];

/// The four zones, but some entries others.
fn four_but(others: &[(usize, Rect)]) -> Question {
    let mut rects = FOUR;
    others.iter().for_each(|(at, rect)| rects[*at] = *rect);
    Question { room: 16, numbers: rects.concat() }
}

/// The list of four: at each position an empty entry, a full one, a point, a bad one of each kind; one with several
/// faults at positions in turn; and the list cut off after each number.
fn at_each_position(rng: &mut Rng) -> Vec<Question> {
    let mut asked = Vec::new();
    for at in 0..FOUR.len() {
        let mut entries = vec![EMPTY, [-FRAC_PI_2, -2.0, PI, -PI], FULL, [0.0, 1.0, 1.0, 1.0]];
        entries.extend(OF_RECT.map(|number| bad(rng, number)));
        asked.extend(entries.into_iter().map(|entry| four_but(&[(at, entry)])));
    }
    asked.extend(FAULTY.iter().enumerate().map(|(at, rect)| four_but(&[(at % FOUR.len(), *rect)])));
    asked.extend((0..=16).map(|end| Question { room: 16, numbers: FOUR.concat()[..end].to_vec() }));
    asked
}

/// Two bad entries in the list of four, of each two kinds in both orders, and of one kind, at positions in turn.
fn two_bad(rng: &mut Rng) -> Vec<Question> {
    const POSITIONS: [[usize; 2]; 6] = [[0, 1], [1, 3], [0, 3], [2, 3], [0, 2], [1, 2]];
    let kinds = OF_RECT.iter().flat_map(|first| OF_RECT.map(|second| [*first, second]));
    let one = |(at, kinds): (usize, [u8; 2])| {
        let [first, second] = POSITIONS[at % POSITIONS.len()];
        four_but(&[(first, bad(rng, kinds[0])), (second, bad(rng, kinds[1]))])
    };
    kinds.enumerate().map(one).collect()
}

/// A bad entry far on in the list: of each kind at 17, and where the entry's number gets another digit. No room is
/// needed, and there is some.
fn bad_far_on(rng: &mut Rng) -> Vec<Question> {
    let places = [(20, 17), (20, 17), (20, 17), (20, 17), (11, 9), (11, 10), (101, 99), (101, 100)];
    let one = |((count, at), number): ((usize, usize), &u8)| {
        let mut rects = vec![zone([2.0, 1.0]); count];
        rects[at] = bad(rng, *number);
        Question { room: 2, numbers: rects.concat() }
    };
    places.into_iter().zip(OF_RECT.iter().cycle()).map(one).collect()
}

/// Bands that meet in a pole, in one latitude, in neighbouring ones or not at all.
fn poles() -> Vec<Question> {
    let bands = [
        [FRAC_PI_2, FRAC_PI_2],
        [-FRAC_PI_2, -FRAC_PI_2],
        [-FRAC_PI_2, FRAC_PI_2],
        [-FRAC_PI_2, 0.0],
        [-0.0, FRAC_PI_2],
        [5e-324, 1.0],
        [1.0, FRAC_PI_2],
        [-1.0, 5e-324],
    ];
    let pair = |a: [f64; 2], b: [f64; 2]| fitting(&[[a[0], a[1], -1.0, 1.0], [b[0], b[1], 1.0, -1.0]]);
    bands.iter().flat_map(|a| bands.iter().map(move |b| pair(*a, *b))).collect()
}

/// The most entries with as many pieces, the most entries with one piece, the same with the last one bad, and one entry
/// too many.
fn longest(rng: &mut Rng) -> Vec<Question> {
    let notch = |at: usize| {
        let from = (at as f64 - 256.0) / 128.0;
        zone([from + 1.0 / 256.0, from])
    };
    let notched: Vec<Rect> = (0..MOST_RECTS).map(notch).collect();
    let mut zones = vec![zone([2.0, 1.0]); MOST_RECTS];
    zones[MOST_RECTS - 1] = zone([0.5, 3.0]);
    let mut last_bad = zones.clone();
    last_bad[MOST_RECTS - 1] = bad(rng, BAD_CIRCLE);
    let too_many = vec![FULL; MOST_RECTS + 1];
    vec![fitting(&notched), fitting(&zones), fitting(&last_bad), fitting(&too_many)]
}

/// More arcs across the seam than are sorted at once, each starting in the one before it; the last one twice.
/// There is one piece, and room for another.
fn nested() -> Question {
    let mut zones: Vec<Rect> = (0..64).map(|at| zone([1.0 + f64::from(at) / 64.0, -1.0])).collect();
    zones.push(zones[63]);
    Question { room: 8, numbers: zones.concat() }
}

/// Rooms, bars and lists of the wrong form.
fn no_questions() -> Vec<Vec<u8>> {
    let rooms =
        ["", "-", "-1", "+4", "04", "00", "2053", "9999", "10000", "4.0", "0x4", "A", "18446744073709551620"];
    let bars = ["", " ", " | ", " ||", " | |", "|", " :", " |0000000000000000", " | 4"];
    let mut lines: Vec<Vec<u8>> = rooms.iter().map(|room| format!("common {room} |").into_bytes()).collect();
    lines.extend(bars.iter().map(|bar| format!("common 4{bar}").into_bytes()));
    lines.push([b"common 0 |".to_vec(), b" 0000000000000000".repeat(MOST_NUMBERS + 1)].concat());
    lines
}
