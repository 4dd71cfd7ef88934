//! Drawing GeoJSON boxes and texts. A text is spelled from a box in any way that reads as that box: more
//! decimals than needed, "-0", -180 for the seam, spaces. Most are left so; of the others some have a
//! number out of range, and some are damaged in one place or two, so that they are nearly right.

use super::bounds::{seam_read, Bounds, DEGREE, LIMITS, POLE, SEAM};
pub use super::damage::damage;
use super::question::{length_needed, Question, Sides, Way, Whole, MOST_ROOM, SHORT_TEXT};
use super::text;
use crate::base::rng::Rng;
use crate::base::words::LONGEST_LINE;

/// A question with a text that is not long, or with a box.
pub fn short(rng: &mut Rng, way: Way) -> Question {
    match way {
        Way::Read => Question::Read { text: text(rng) },
        Way::Write => write(rng),
        Way::Rect => Question::Rect { sides: sides(rng) },
    }
}

/// A question with a long text: spaces, here and there. Now and then as many as a line can hold.
pub fn long(rng: &mut Rng) -> Question {
    let most = (LONGEST_LINE - "bbox.read ".len()) / 2;
    let bounds = bounds(rng);
    let mut text = spelled(rng, bounds);
    let length = if rng.below(8) == 0 { most } else { SHORT_TEXT + 1 + rng.below(5_000) };
    // In two places, mostly where spaces may stand; else the text is a bad one.
    for share in [rng.below(length - text.len() + 1), length] {
        let at = if rng.percent(90) { gap(rng, &text) } else { rng.below(text.len() + 1) };
        let count = share.saturating_sub(text.len());
        let spaces: Vec<u8> = (0..count).map(|_| rng.pick(&SPACES)).collect();
        text.splice(at..at, spaces);
    }
    Question::Read { text }
}

/// JSON's four.
pub const SPACES: [u8; 4] = [0x20, 0x09, 0x0A, 0x0D];

/// A text, mostly one that is accepted.
pub fn text(rng: &mut Rng) -> Vec<u8> {
    let bounds = bounds(rng);
    let share = rng.below(100);
    let mut text = match share {
        0..=8 => {
            let beyond = beyond(rng, bounds);
            spelled(rng, beyond)
        }
        _ => spelled(rng, bounds),
    };
    // Of those out of range some are damaged too: a bad text is found first.
    if (7..=15).contains(&share) {
        for _ in 0..rng.pick(&[1, 1, 1, 2]) {
            damage(&mut text, rng);
        }
    }
    text
}

/// A question to write a box: mostly with just room enough, sometimes more, sometimes less.
fn write(rng: &mut Rng) -> Question {
    let sides = sides(rng);
    let needed = length_needed(&sides);
    let room = match rng.below(32) {
        0 => 0,
        1 => rng.below(needed.max(1)),
        2 => needed.saturating_sub(1),
        3..=15 => needed,
        16..=29 => needed + rng.below(12),
        30 => MOST_ROOM,
        _ => rng.below(MOST_ROOM + 1),
    };
    Question::Write { room: room.min(MOST_ROOM), sides }
}

/// The numbers of a box: mostly one that reading can give, else out of range, or of a size beyond all.
fn sides(rng: &mut Rng) -> Sides {
    let bounds = bounds(rng);
    match rng.below(100) {
        0..=5 => beyond(rng, bounds).map(Whole::from),
        6..=8 => unsettled(rng, bounds).map(Whole::from),
        9..=10 => {
            let mut sides = bounds.map(Whole::from);
            let at = rng.below(4);
            sides[at] = huge(rng, bounds[at]);
            sides
        }
        _ => bounds.map(Whole::from),
    }
}

/// A number of up to 40 digits. A reader that lets it overflow may take it for a small one.
fn huge(rng: &mut Rng, near: i64) -> Whole {
    let minus = rng.pick(&["", "-"]);
    let wrapped =
        i128::from(near.abs()) + rng.pick(&[1_i128 << 32, 1 << 63, 1 << 64, 1 << 65, 10_i128.pow(19)]);
    let digits = match rng.below(3) {
        0 => wrapped.to_string(),
        1 => format!("{}{:019}", 1 + rng.below(9), rng.bits() >> 2),
        _ => format!("{}{}", 1 + rng.below(9), rng.pick(&["0", "9", "3"]).repeat(9 + rng.below(30))),
    };
    Whole::of(&format!("{minus}{digits}"))
}

/// The same box with a -180 that reading would have read as 180.
fn unsettled(rng: &mut Rng, [west, south, east, north]: Bounds) -> Bounds {
    match rng.below(3) {
        0 => [west, south, -SEAM, north],
        1 => [-SEAM, south, if east == SEAM { SEAM - 1 } else { east }, north],
        _ => [-SEAM, south, -SEAM, north],
    }
}

/// The same box with one number out of range, now and then two, or with south above north.
pub fn beyond(rng: &mut Rng, bounds: Bounds) -> Bounds {
    let [west, south, east, north] = bounds;
    if rng.percent(25) {
        return match rng.below(3) {
            0 if south > -POLE => [west, south, east, south - 1],
            1 if south < north => [west, north, east, south],
            _ => [west, POLE, east, south.min(POLE - 1)],
        };
    }
    let mut beyond = bounds;
    for _ in 0..rng.pick(&[1, 1, 1, 2]) {
        let at = rng.below(4);
        let size = match rng.below(4) {
            0 => LIMITS[at] + 1,
            1 => LIMITS[at] + DEGREE * (1 + rng.below(90) as i64),
            2 => 1_000 * DEGREE - 1,
            _ => LIMITS[at] + 1 + rng.below((1_000 * DEGREE - 1 - LIMITS[at]) as usize) as i64,
        };
        beyond[at] = rng.pick(&[size, -size]);
    }
    beyond
}

/// A box that reading can give.
pub fn bounds(rng: &mut Rng) -> Bounds {
    if rng.below(40) == 0 {
        return longest(rng);
    }
    let (west, east) = match rng.below(16) {
        0 => (-SEAM, SEAM),
        1 => (SEAM, SEAM),
        _ => {
            let west = number(rng, SEAM);
            (west, related(rng, SEAM, west))
        }
    };
    let south = number(rng, POLE);
    let north = related(rng, POLE, south);
    seam_read([west, south.min(north), east, south.max(north)])
}

/// A box whose numbers all have a minus and as many digits as there can be.
fn longest(rng: &mut Rng) -> Bounds {
    let mut number = |least: i64, end: i64| {
        let tenths = least * (DEGREE / 10) + rng.below(((end - least) * (DEGREE / 10)) as usize) as i64;
        -(10 * tenths + 1 + rng.below(9) as i64)
    };
    let (south, north) = (number(10, 90), number(10, 90));
    [number(100, 180), south.min(north), number(100, 180), south.max(north)]
}

/// A second number of a box: often the first one, its neighbour or its negative.
fn related(rng: &mut Rng, limit: i64, first: i64) -> i64 {
    let drawn = match rng.below(10) {
        0 => first,
        1 => first + rng.pick(&[1, -1]),
        2 => -first,
        _ => number(rng, limit),
    };
    drawn.clamp(-limit, limit)
}

/// A number up to a limit, of either sign: an edge, or any number with so many decimals.
pub fn number(rng: &mut Rng, limit: i64) -> i64 {
    let whole = match rng.below(10) {
        0..=1 => rng.pick(&[limit, limit - 1, limit - DEGREE, limit / 2]),
        2 => rng.pick(&[0, 1, 9, 10, DEGREE - 1, DEGREE, DEGREE + 1, 10 * DEGREE - 1, 10 * DEGREE]),
        3 => {
            let end = 10_usize.pow(rng.below(9) as u32);
            rng.below(end) as i64
        }
        _ => {
            let unit = 10_i64.pow(rng.below(8) as u32);
            rng.below((limit / unit) as usize + 1) as i64 * unit
        }
    };
    rng.pick(&[whole, -whole])
}

/// A text that reads as this box, whatever its numbers are.
pub fn spelled(rng: &mut Rng, bounds: Bounds) -> Vec<u8> {
    let often = rng.pick(&[0, 0, 10, 40]);
    let full = rng.pick(&[0, 0, 20, 60]);
    let mut text = spaces(rng, often);
    for (at, side) in seam_named(rng, bounds).into_iter().enumerate() {
        text.push(if at == 0 { b'[' } else { b',' });
        text.extend(spaces(rng, often));
        text.extend(spelled_number(rng, side, full).into_bytes());
        text.extend(spaces(rng, often));
    }
    text.push(b']');
    text.extend(spaces(rng, often));
    text
}

/// The same box with the seam by either name: -180 is read as 180, but for -180 with 180.
pub fn seam_named(rng: &mut Rng, [west, south, east, north]: Bounds) -> Bounds {
    let (west, east) = match (west, east) {
        (SEAM, SEAM) => rng.pick(&[(SEAM, SEAM), (SEAM, -SEAM), (-SEAM, -SEAM)]),
        (SEAM, _) => rng.pick(&[(SEAM, east), (-SEAM, east)]),
        (_, SEAM) if west != -SEAM => rng.pick(&[(west, SEAM), (west, -SEAM)]),
        (_, _) => (west, east),
    };
    [west, south, east, north]
}

/// The number with more decimals than it needs, this many times in a hundred, and 0 at times as -0.
fn spelled_number(rng: &mut Rng, number: i64, full: usize) -> String {
    let mut text = text::number(number);
    if number == 0 && rng.percent(40) {
        text.insert(0, '-');
    }
    if rng.percent(full) {
        let decimals = text.find('.').map_or(0, |point| text.len() - point - 1);
        let more = rng.below(8 - decimals);
        if more > 0 && decimals == 0 {
            text.push('.');
        }
        text.push_str(&"0".repeat(more));
    }
    text
}

fn spaces(rng: &mut Rng, often: usize) -> Vec<u8> {
    let count = if rng.percent(often) { 1 + rng.below(3) } else { 0 };
    (0..count).map(|_| rng.pick(&SPACES)).collect()
}

/// A place in a good text where spaces may stand.
fn gap(rng: &mut Rng, text: &[u8]) -> usize {
    let around = |at: &usize| {
        let before = at.checked_sub(1).map_or(b'[', |at| text[at]);
        let after = text.get(*at).copied().unwrap_or(b']');
        b"[,]".contains(&before) || b"[,]".contains(&after)
    };
    let gaps: Vec<usize> = (0..=text.len()).filter(around).collect();
    rng.pick(&gaps)
}
