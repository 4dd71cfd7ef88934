//! The arms of the questions of boxes. The crate has no branches for them, so these are the ones of
//! document 02: kinds of numbers and spaces, what becomes of the seam, each way to leave the productions,
//! each way to be out of range, and what goes before what.

use super::bounds::{degrees, in_limit, in_limits, rect_of, seam_read, Bounds};
use super::bounds::{DEGREE, LIMITS, POLE, SEAM, SIDES};
use super::question::{box_of, length_needed, read_text, text_of, Question, Sides, Way, Whole};
use super::question::{LONG_TEXT, SHORT_TEXT};
use super::text::{self, Fault};
use crate::base::answer::{ACCEPTED, BAD_BOUNDS, NO_ROOM};
use crate::kind::arms::{hits, named, Row};
use crate::kind::Arm;

/// A number as it is written: how many digits before the point and after it, and whether with a minus.
struct Written {
    whole: usize,
    decimals: usize,
    minus: bool,
    is_zero: bool,
}

/// A text: what its productions give, the refusal, and the numbers as they are written.
struct Read {
    text: Vec<u8>,
    array: Result<Bounds, text::Failed>,
    refusal: u8,
    written: Vec<Written>,
}

/// The numbers of a box: the room for its text and how much it needs, the count of bytes written or the
/// refusal, the box if it can be read, and each number if it is not far beyond its limit.
struct Given {
    room: usize,
    needed: usize,
    written: Result<usize, u8>,
    bounds: Result<Bounds, u8>,
    values: [Option<i64>; 4],
}

const OF_NUMBERS: &[Row<Written>] = &[
    ("one digit before the point", |n| n.whole == 1),
    ("two digits before the point", |n| n.whole == 2),
    ("three digits before the point", |n| n.whole == 3),
    ("no decimals", |n| n.decimals == 0),
    ("one decimal", |n| n.decimals == 1),
    ("two decimals", |n| n.decimals == 2),
    ("three decimals", |n| n.decimals == 3),
    ("four decimals", |n| n.decimals == 4),
    ("five decimals", |n| n.decimals == 5),
    ("six decimals", |n| n.decimals == 6),
    ("seven decimals", |n| n.decimals == 7),
    ("a minus", |n| n.minus && !n.is_zero),
];

const OF_BOXES: &[Row<Bounds>] = &[
    ("the whole circle", |[west, _, east, _]| (*west, *east) == (-SEAM, SEAM)),
    ("over the seam", |[west, _, east, _]| west > east),
    ("a single meridian", |[west, _, east, _]| west == east),
    ("the seam alone", |[west, _, east, _]| (*west, *east) == (SEAM, SEAM)),
    ("a single latitude", |[_, south, _, north]| south == north),
    ("a pole", |[_, south, _, north]| *south == -POLE || *north == POLE),
    ("a number is 0", |bounds| bounds.contains(&0)),
];

const OF_READ: &[Row<Read>] = &[
    ("-0", |read| read.accepts() && read.written.iter().any(|n| n.minus && n.is_zero)),
    ("more digits than needed", |read| {
        let bare = |text: &[u8]| text.iter().filter(|byte| !byte.is_ascii_whitespace()).count();
        read.accepts() && read.bounds().is_some_and(|b| bare(&read.text) > text::write(*b).len())
    }),
    ("a space", |read| read.accepts() && read.text.contains(&b' ')),
    ("a tab", |read| read.accepts() && read.text.contains(&b'\t')),
    ("a newline", |read| read.accepts() && read.text.contains(&b'\n')),
    ("a carriage return", |read| read.accepts() && read.text.contains(&b'\r')),
    ("spaces before the array", |read| read.accepts() && read.text[0] != b'['),
    ("spaces after the array", |read| read.accepts() && !read.text.ends_with(b"]")),
    ("spaces before a number", |read| read.accepts() && read.space_beside(0, b"[,")),
    ("spaces after a number", |read| read.accepts() && read.space_beside(1, b",]")),
    ("west -180 is read as 180", |read| {
        read.accepts() && read.bounds().is_some_and(|b| b[0] == -SEAM && b[2] != SEAM)
    }),
    ("east -180 is read as 180", |read| read.accepts() && read.bounds().is_some_and(|b| b[2] == -SEAM)),
    ("west 180 with east -180", |read| {
        read.accepts() && read.bounds().is_some_and(|b| (b[0], b[2]) == (SEAM, -SEAM))
    }),
    ("bad text, and a number before is out of range", |read| match &read.array {
        Err(failed) => failed.numbers.iter().enumerate().any(|(at, number)| !in_limit(at, *number)),
        Ok(_) => false,
    }),
];

const FAULTS: &[(&str, Fault)] = &[
    ("no opening bracket", Fault::NoBeginArray),
    ("no digit", Fault::NoDigit),
    ("four digits before the point", Fault::LongInt),
    ("no digit after the point", Fault::NoDecimal),
    ("eight decimals", Fault::LongFrac),
    ("no comma", Fault::NoSeparator),
    ("no closing bracket", Fault::NoEndArray),
    ("text after the array", Fault::TextAfter),
];

const SOUTH_ABOVE_NORTH: Arm = Arm::of("south above north");

const fn out_of_range(part: &'static str) -> Arm {
    Arm { part, name: "out of range" }
}

const OF_WRITE: &[Row<Given>] = &[
    ("just room enough", |given| given.written == Ok(given.needed) && given.room == given.needed),
    ("room to spare", |given| given.written == Ok(given.needed) && given.room > given.needed),
    ("the longest text", |given| given.written == Ok(51)),
    ("one byte too few", |given| given.written == Err(NO_ROOM) && given.room + 1 == given.needed),
    ("no room at all", |given| given.written == Err(NO_ROOM) && given.room == 0),
    ("a box that cannot be read, and no room", |given| given.written == Err(BAD_BOUNDS) && given.room == 0),
    ("a box that cannot be read, and room to spare", |given| {
        given.written == Err(BAD_BOUNDS) && given.room > 51
    }),
];

const OF_RECT: &[Row<Given>] = &[
    ("a quotient is rounded", |given| given.any_taken(|n| degrees(n).mul_add(1e7, -(n as f64)) != 0.0)),
    ("a product with 1e-7 is another number", |given| given.any_taken(|n| n as f64 * 1e-7 != degrees(n))),
    ("an end is 180 or 90", |given| given.bounds.is_ok_and(|b| (0..4).any(|at| b[at].abs() == LIMITS[at]))),
    ("one away from 180 or 90", |given| {
        given.bounds.is_ok_and(|b| (0..4).any(|at| b[at].abs() == LIMITS[at] - 1))
    }),
    ("whole degrees alone", |given| given.bounds.is_ok_and(|b| b.iter().all(|n| n % DEGREE == 0))),
    ("neighbours that are not one number", |given| {
        given.bounds.is_ok_and(|b| {
            let [lat_lo, lat_hi, lng_lo, lng_hi] = rect_of(b);
            (b[3] - b[1] == 1 && lat_lo < lat_hi) || (b[2] - b[0] == 1 && lng_lo < lng_hi)
        })
    }),
];

/// Wanted of both questions that are given the numbers of a box: what refuses it.
const OF_GIVEN: &[Row<Given>] = &[
    ("east -180", |given| given.in_limits_but(|_, east| east == -SEAM)),
    ("west -180 without east 180", |given| given.in_limits_but(|west, east| west == -SEAM && east != SEAM)),
    ("a number beyond 64 bits", |given| given.values.contains(&None)),
];

/// All arms.
pub fn all(way: Way) -> Vec<Arm> {
    let mut arms: Vec<Arm> = named(OF_BOXES).collect();
    if way != Way::Rect {
        arms.extend(named(OF_NUMBERS));
    }
    match way {
        Way::Read => arms.extend(named(OF_READ).chain(FAULTS.iter().map(|(name, _)| Arm::of(name)))),
        Way::Write => arms.extend(named(OF_GIVEN).chain(named(OF_WRITE))),
        Way::Rect => arms.extend(named(OF_GIVEN).chain(named(OF_RECT))),
    }
    arms.push(SOUTH_ABOVE_NORTH);
    arms.extend(SIDES.map(out_of_range));
    arms
}

/// The arms that a question reaches.
pub fn reached(asked: &Question) -> Vec<Arm> {
    match asked {
        Question::Read { text } => of_read(text),
        Question::Write { room, sides } => {
            let mut hit = of_given(*room, sides, OF_WRITE);
            if let Ok(text) = text_of(sides, *room) {
                hit.extend(of_numbers(&numbers_of(text.as_bytes())));
            }
            hit
        }
        Question::Rect { sides } => of_given(0, sides, OF_RECT),
    }
}

fn of_read(text: &[u8]) -> Vec<Arm> {
    let refusal = read_text(text).err().unwrap_or(ACCEPTED);
    let read = Read { text: text.to_vec(), array: text::array(text), refusal, written: numbers_of(text) };
    let mut hit = hits(OF_READ, &read);
    match (&read.array, read.refusal) {
        (Ok(bounds), ACCEPTED) => {
            hit.extend(of_numbers(&read.written));
            hit.extend(hits(OF_BOXES, &seam_read(*bounds)));
        }
        (Ok(bounds), _) => hit.extend(out_of_limits(bounds.map(Some))),
        (Err(failed), _) => {
            let its = FAULTS.iter().filter(|(_, fault)| *fault == failed.fault);
            hit.extend(its.map(|(name, _)| Arm::of(name)));
        }
    }
    if text.len() > SHORT_TEXT {
        hit.push(LONG_TEXT);
    }
    hit
}

fn of_given(room: usize, sides: &Sides, its: &[Row<Given>]) -> Vec<Arm> {
    let values = sides.each_ref().map(Whole::value);
    let written = text_of(sides, room).map(|text| text.len());
    let given = Given { room, needed: length_needed(sides), written, bounds: box_of(sides), values };
    let mut hit = [hits(OF_GIVEN, &given), hits(its, &given), out_of_limits(values)].concat();
    if let Ok(bounds) = given.bounds {
        hit.extend(hits(OF_BOXES, &bounds));
    }
    hit
}

fn of_numbers(written: &[Written]) -> Vec<Arm> {
    let reached = |(_, test): &&Row<Written>| written.iter().any(test);
    OF_NUMBERS.iter().filter(reached).map(|(name, _)| Arm::of(name)).collect()
}

/// The numbers that are out of range, or south above north where none is.
fn out_of_limits(values: [Option<i64>; 4]) -> Vec<Arm> {
    let is_out = |at: &usize| !values[*at].is_some_and(|value| in_limit(*at, value));
    let mut hit: Vec<Arm> = (0..4).filter(is_out).map(|at| out_of_range(SIDES[at])).collect();
    if hit.is_empty() && values[1] > values[3] {
        hit.push(SOUTH_ABOVE_NORTH);
    }
    hit
}

/// The numbers of a good text, as they are written.
fn numbers_of(text: &[u8]) -> Vec<Written> {
    let is_part = |byte: &u8| byte.is_ascii_digit() || b"-.".contains(byte);
    let words = text.split(|byte| !is_part(byte)).filter(|word| !word.is_empty());
    words.map(written).collect()
}

fn written(word: &[u8]) -> Written {
    let digits = |part: &[u8]| part.iter().filter(|byte| byte.is_ascii_digit()).count();
    let point = word.iter().position(|byte| *byte == b'.').unwrap_or(word.len());
    Written {
        whole: digits(&word[..point]),
        decimals: digits(&word[point..]),
        minus: word[0] == b'-',
        is_zero: !word.iter().any(|byte| (b'1'..=b'9').contains(byte)),
    }
}

impl Read {
    fn accepts(&self) -> bool {
        self.refusal == ACCEPTED
    }

    /// The numbers as they stand in the text.
    fn bounds(&self) -> Option<&Bounds> {
        self.array.as_ref().ok()
    }

    /// Whether of two neighbouring bytes this one is one of these signs and the other one a space.
    fn space_beside(&self, at: usize, signs: &[u8]) -> bool {
        let is_space = |byte: &u8| byte.is_ascii_whitespace();
        self.text.windows(2).any(|two| signs.contains(&two[at]) && is_space(&two[1 - at]))
    }
}

impl Given {
    fn any_taken(&self, test: fn(i64) -> bool) -> bool {
        self.bounds.is_ok_and(|bounds| bounds.into_iter().any(test))
    }

    /// Whether the numbers are within their limits, and this holds for west and east.
    fn in_limits_but(&self, test: fn(i64, i64) -> bool) -> bool {
        match self.values {
            [Some(west), Some(south), Some(east), Some(north)] => {
                in_limits([west, south, east, north]) && test(west, east)
            }
            _ => false,
        }
    }
}
