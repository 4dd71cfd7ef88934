//! The stored questions of boxes. Reading: the texts of `texts.rs`. Writing: every width of number, every kind
//! of box and room. Conversion: edges and their neighbours. Then lines that are no question.

use super::bounds::{Bounds, DEGREE, POLE, SEAM};
use super::question::{length_needed, Question, Sides, Way, Whole, MOST_ROOM};
use super::texts;
use crate::kind::spoils::OF_WORDS;
use crate::kind::{boxed, Kind, Stored};

pub fn of(way: Way) -> Stored {
    let special = match way {
        Way::Read => texts::all().into_iter().map(|text| Question::Read { text }).collect(),
        Way::Write => writings(),
        Way::Rect => conversions(),
    };
    let special = boxed(special);
    Stored {
        special,
        each_arm: 2,
        free: 25,
        no_questions: no_questions(way),
        spoils: OF_WORDS,
        ..Stored::default()
    }
}

/// The question to write a box, and the one to convert it.
fn write(room: usize, bounds: Bounds) -> Question {
    Question::Write { room, sides: bounds.map(Whole::from) }
}

fn rect(bounds: Bounds) -> Question {
    Question::Rect { sides: bounds.map(Whole::from) }
}

/// A box of each kind. Those of CANNOT cannot come from reading.
const BOXES: &[Bounds] = &[
    [0, 0, 0, 0],
    [-SEAM, -POLE, SEAM, POLE],
    [-SEAM, -1, SEAM, POLE],
    [SEAM, 0, SEAM, 0],
    [SEAM, -POLE, 0, POLE],
    [SEAM, 1, -SEAM + 1, 2],
    [-SEAM + 1, -POLE + 1, SEAM - 1, POLE - 1],
    [SEAM - 1, -1, -SEAM + 1, 1],
    [-1, -1, -1, -1],
    [1, 1, 1, 1],
    [1, 0, -1, 0],
    [DEGREE, 2 * DEGREE, 3 * DEGREE, 4 * DEGREE],
    [-SEAM + 1, -POLE + 1, -SEAM + 1, -POLE + 1],
    [-100 * DEGREE, -10 * DEGREE, 100 * DEGREE, 10 * DEGREE],
    [DEGREE / 10, -DEGREE / 100, DEGREE / 1_000, DEGREE / 10_000],
    [-1_234_567_891, -123_456_789, 1_023_456_700, 890_000_010],
    [0, POLE, 0, POLE],
    [0, -POLE, 0, -POLE],
];

const CANNOT: &[Bounds] = &[
    [-SEAM, 0, -SEAM, 0],
    [SEAM, 0, -SEAM, 0],
    [0, 0, -SEAM, 0],
    [-SEAM, 0, 0, 0],
    [-SEAM, 0, SEAM - 1, 0],
    [-SEAM, 0, -SEAM + 1, 0],
    [SEAM + 1, 0, 0, 0],
    [-SEAM - 1, 0, SEAM, 0],
    [0, 0, SEAM + 1, 0],
    [-SEAM, 0, SEAM + 1, 0],
    [0, 0, -SEAM - 1, 0],
    [0, -POLE - 1, 0, 0],
    [0, POLE + 1, 0, POLE],
    [0, 0, 0, POLE + 1],
    [0, -POLE, 0, -POLE - 1],
    [0, 1, 0, 0],
    [0, 0, 0, -1],
    [0, POLE, 0, -POLE],
    [0, POLE, 0, POLE - 1],
    [SEAM, SEAM, SEAM, SEAM],
    [i32::MAX as i64, 0, 0, 0],
    [i32::MIN as i64, 0, 0, 0],
    [0, 1 << 32, 0, 0],
    [i64::MAX, i64::MAX, i64::MAX, i64::MAX],
    [i64::MIN, i64::MIN, i64::MIN, i64::MIN],
];

/// Numbers that overflow a reader of 32, 64 or 128 bits, at times into a number that would be taken.
const HUGE: &[&str] = &[
    "4294967296",
    "-4294967297",
    "6094967296",
    "9223372036854775808",
    "-9223372036854775809",
    "18446744073709551616",
    "18446744073709551615",
    "18446744073709551617",
    "-18446744073709551616",
    "18446744075509551616",
    "99999999999999999999",
    "-10000000000000000000",
    "340282366920938463463374607431768211456",
    "100000000000000000000000000000",
    "-999999999999999999999999999999",
];

fn writings() -> Vec<Question> {
    let mut asked = widths();
    for bounds in BOXES {
        let needed = length_needed(&bounds.map(Whole::from));
        asked.extend([needed, needed - 1, 0, MOST_ROOM].map(|room| write(room, *bounds)));
    }
    for bounds in CANNOT {
        asked.extend([0, 60].map(|room| write(room, *bounds)));
    }
    // Every room, of the shortest text and of the longest.
    for bounds in [BOXES[0], BOXES[12]] {
        let needed = length_needed(&bounds.map(Whole::from));
        asked.extend((0..=needed + 1).map(|room| write(room, bounds)));
    }
    asked.extend(huge().into_iter().map(|sides| Question::Write { room: 55, sides }));
    asked.extend(minus_zeros().map(|sides| Question::Write { room: 12, sides }));
    asked
}

/// One to three digits before the point, each count of decimals, with and without a minus, the sides in
/// turn: with just room enough, and with one byte less.
fn widths() -> Vec<Question> {
    let mut asked = Vec::new();
    for (at, whole) in [0, 7, 42, 123].into_iter().enumerate() {
        for decimals in 0..=7_usize {
            let part = "1234567"[..decimals].parse::<i64>().unwrap_or(0) * 10_i64.pow(7 - decimals as u32);
            for number in [whole * DEGREE + part, -(whole * DEGREE + part)] {
                let turn = at + decimals;
                let place = if whole > 90 { turn % 2 * 2 } else { turn % 4 };
                let mut bounds = [0, -POLE, 0, POLE];
                bounds[place] = number;
                let needed = length_needed(&bounds.map(Whole::from));
                asked.extend([needed, needed - 1].map(|room| write(room, bounds)));
            }
        }
    }
    asked
}

/// A number of many digits in each place in turn.
fn huge() -> Vec<Sides> {
    let put = |(at, text): (usize, &&str)| {
        let mut sides = [0, 0, 0, 0].map(Whole::from);
        sides[at % 4] = Whole::of(text);
        sides
    };
    HUGE.iter().enumerate().map(put).collect()
}

/// -0 is read as 0, in each place and in all.
fn minus_zeros() -> [Sides; 5] {
    let places: [&[usize]; 5] = [&[0], &[1], &[2], &[3], &[0, 1, 2, 3]];
    places.map(|places| {
        let mut sides = [0, 0, 0, 0].map(Whole::from);
        places.iter().for_each(|at| sides[*at] = Whole::of("-0"));
        sides
    })
}

fn conversions() -> Vec<Question> {
    let mut asked: Vec<Question> = BOXES.iter().chain(CANNOT).map(|bounds| rect(*bounds)).collect();
    // Edges with their neighbours, each number as west, and as south where it is a latitude.
    for edge in
        [0, 1, 10, DEGREE, 30 * DEGREE, 45 * DEGREE, 60 * DEGREE, POLE, 120 * DEGREE, 135 * DEGREE, SEAM]
    {
        for number in [edge - 1, edge, edge + 1].into_iter().flat_map(|number| [number, -number]) {
            asked.push(rect([number, -POLE, 5, POLE]));
            if number.abs() <= POLE + 1 {
                asked.push(rect([7, number, 8, POLE]));
            }
        }
    }
    // Powers of ten and of two, whose quotients are rounded in several ways.
    for power in 0..=9 {
        let number = 10_i64.pow(power);
        asked.push(rect([-number, -POLE, 3 * number.min(SEAM / 3), POLE]));
    }
    for power in 0..=30 {
        asked.push(rect([(1 << power) - 1, 0, 1 << power, (1 << power).min(POLE)]));
    }
    asked.extend(huge().into_iter().map(|sides| Question::Rect { sides }));
    asked.extend(minus_zeros().map(|sides| Question::Rect { sides }));
    asked
}

/// Operands of the wrong form.
fn no_questions(way: Way) -> Vec<Vec<u8>> {
    let forms: &[&str] = match way {
        Way::Read => &[
            "", " ", " -", "--", "- -", "-5B", "5B-", "5", "5B3", "5G", "G5", "0x5B", "5B 31", "5b 5D",
            "5B31,", "[]", "[1,2,3,4]", "+5B", "5B ", " 5B", "| 5B", "5B |", "\"\"", "5B5D -", "_", "5B\t",
            "5B3Z", "5B:1",
        ],
        Way::Write => &[
            "", "99", "99 0 0 0", "99 0 0 0 0 0", "100 0 0 0 0", "-1 0 0 0 0", "+1 0 0 0 0", "01 0 0 0 0",
            "00 0 0 0 0", "- 0 0 0 0", "1.0 0 0 0 0", "0x9 0 0 0 0", "A 0 0 0 0",
            "18446744073709551617 0 0 0 0", "4294967297 0 0 0 0", "9 +1 0 0 0", "9 0 01 0 0", "9 0 0 -01 0",
            "9 0 0 0 -", "9 - 0 0 0", "9 0 -00 0 0", "9 0 0 00 0", "9 0 0 0 1.0", "9 1e3 0 0 0",
            "9 0 --1 0 0", "9 0 0 1- 0", "9 0 0 0 0x1", "9  0 0 0", "9 0 0 0 ", "9 0 | 0 0", "9 | 0 0 0 0",
            "9 0,0,0,0", "9 [0,0,0,0]", "9 a 0 0 0", "9 0 0 0 0 ", "9 -+1 0 0 0", "9 1_0 0 0 0",
        ],
        Way::Rect => &[
            "", "0", "0 0 0", "0 0 0 0 0", "+1 0 0 0", "0 01 0 0", "0 0 -01 0", "0 0 0 -", "- 0 0 0",
            "0 -00 0 0", "0 0 00 0", "0 0 0 1.0", "1e3 0 0 0", "0 --1 0 0", "0 0 1- 0", "0 0 0 0x1",
            " 0 0 0", "0 0 0 ", "0 0  0 0", "0 0 0 0 ", "0 | 0 0", "| 0 0 0 0", "0,0,0,0", "0 0 0 A",
            "3FF0000000000000 0 0 0 0", "0 0 0 3FF0000000000000", "0000000000000000 0 0 0",
        ],
    };
    let name = way.name();
    let mut lines: Vec<Vec<u8>> = forms.iter().map(|form| format!("{name} {form}").into_bytes()).collect();
    lines.push(name.as_bytes().to_vec());
    lines
}
