//! Drawing inputs of the program `boxes`: lines of boxes that have to do with one another, spelled in any
//! way, whole or damaged. Most have 0 to 8 lines, one in 50 has 500 to 513, one in 100 has more, and two in
//! 100 have about as many bytes as are looked at.

use super::answer::{MOST_BYTES, MOST_LINES};
use crate::base::rng::Rng;
use crate::kind::SHORT;
use crate::kinds::bbox::bounds::{seam_read, Bounds, DEGREE, LIMITS, POLE, SEAM};
use crate::kinds::bbox::draw as texts;

/// The input at this place of a run.
pub fn input(rng: &mut Rng, place: usize) -> Vec<u8> {
    let count = match place % 100 {
        99 => MOST_LINES + 1 + rng.below(20),
        24 | 74 if rng.percent(40) => MOST_LINES + rng.below(2),
        24 | 74 => MOST_LINES - 12 + rng.below(14),
        49 | 50 if rng.percent(50) => MOST_LINES - rng.below(3),
        _ => rng.below(SHORT + 1),
    };
    let mut lines: Vec<Vec<u8>> = boxes(rng, count).into_iter().map(|bounds| line(rng, bounds)).collect();
    if rng.percent(if count > SHORT { 25 } else { 30 }) {
        // Two faults now and then: the first one decides.
        for _ in 0..rng.pick(&[1, 1, 1, 2]) {
            let (_, fault) = rng.pick(FAULTS);
            fault(&mut lines, rng);
        }
    }
    if [49, 50].contains(&(place % 100)) {
        lengthen(&mut lines, rng);
    }
    let mut bytes = joined(rng, &lines);
    if rng.percent(8) {
        let (_, damage) = rng.pick(DAMAGES);
        damage(&mut bytes, rng);
    }
    bytes
}

/// A box as a line. A newline would end it.
fn line(rng: &mut Rng, bounds: Bounds) -> Vec<u8> {
    let mut line = texts::spelled(rng, bounds);
    line.iter_mut().filter(|byte| **byte == b'\n').for_each(|byte| *byte = b' ');
    line
}

/// Lines with a newline after each, the last one at times without; at times with a carriage return before.
fn joined(rng: &mut Rng, lines: &[Vec<u8>]) -> Vec<u8> {
    let returns = rng.pick(&[0, 0, 0, 0, 50, 100]);
    let mut bytes = Vec::new();
    for line in lines {
        bytes.extend(line);
        bytes.extend(if rng.percent(returns) { &b"\r\n"[..] } else { b"\n" });
    }
    if rng.percent(30) {
        bytes.pop();
    }
    bytes
}

/// Boxes that reading can give and that mostly have a place in common.
pub fn boxes(rng: &mut Rng, count: usize) -> Vec<Bounds> {
    let bands = bands(rng, count);
    let arcs = match rng.below(10) {
        0 => (0..count).map(|_| texts::bounds(rng)).map(|[west, _, east, _]| [west, east]).collect(),
        1..=4 => notched(rng, count),
        _ => from_few_sides(rng, count),
    };
    let mut boxes: Vec<Bounds> = arcs
        .into_iter()
        .zip(bands)
        .map(|([west, east], [south, north])| seam_read([west, south, east, north]))
        .collect();
    for _ in 0..rng.pick(&[0, 0, 1, 2]) {
        if count > 0 {
            let at = rng.below(count);
            boxes[at] = special(rng, boxes[at]);
        }
    }
    boxes
}

/// The same band all round, the seam alone, a single meridian, or what meets the box at both sides.
fn special(rng: &mut Rng, [west, south, east, north]: Bounds) -> Bounds {
    let (west, east) = match rng.below(8) {
        0..=2 => (-SEAM, SEAM),
        3 => (SEAM, SEAM),
        4 => (east, east),
        _ => (east, west),
    };
    seam_read([west, south, east, north])
}

/// Sides from a few numbers and their neighbours: sides are shared or nearly so, boxes meet at both sides.
fn from_few_sides(rng: &mut Rng, count: usize) -> Vec<[i64; 2]> {
    let mut few = vec![rng.pick(&[0, SEAM, DEGREE, -SEAM + 1])];
    for _ in 0..1 + rng.below(5) {
        let near = rng.pick(&few) + rng.pick(&[1, -1, DEGREE, -DEGREE]);
        few.push(if rng.percent(40) { onto_circle(near) } else { texts::number(rng, SEAM) });
    }
    let mut arcs: Vec<[i64; 2]> = (0..count).map(|_| [rng.pick(&few), rng.pick(&few)]).collect();
    if rng.percent(50) {
        // All but the first again and again: so more than two often have something in common.
        let [west, east] = [rng.pick(&few), rng.pick(&few)];
        arcs.iter_mut()
            .skip(1)
            .for_each(|arc| *arc = rng.pick(&[[west, east], [east, west], [west, east], *arc]));
    }
    arcs
}

/// Nearly the whole circle, each with a notch of its own: as many pieces as notches that do not meet. Some
/// notches begin where another ends, so that a single meridian is left between them.
fn notched(rng: &mut Rng, count: usize) -> Vec<[i64; 2]> {
    let widest = rng.pick(&[1, 10_000, DEGREE, 50 * DEGREE]);
    let mut last = SEAM;
    let mut arcs = Vec::new();
    for _ in 0..count {
        let from = if rng.percent(20) { last } else { texts::number(rng, SEAM) };
        last = onto_circle(from + 1 + rng.below(widest as usize) as i64);
        arcs.push([last, from]);
    }
    arcs
}

/// A longitude a little beyond the seam, brought back from the other side.
fn onto_circle(longitude: i64) -> i64 {
    match longitude {
        _ if longitude > SEAM => longitude - 2 * SEAM,
        _ if longitude <= -SEAM => longitude + 2 * SEAM,
        _ => longitude,
    }
}

/// Latitudes that mostly all hold one of them.
fn bands(rng: &mut Rng, count: usize) -> Vec<[i64; 2]> {
    let common = texts::number(rng, POLE);
    let meeting = rng.percent(90);
    let band = |rng: &mut Rng| {
        let [a, b] = [texts::number(rng, POLE), texts::number(rng, POLE)];
        match rng.below(6) {
            _ if !meeting => [a.min(b), a.max(b)],
            0 => [common, common],
            1 => [-POLE, POLE],
            _ => [a.min(b).min(common), a.max(b).max(common)],
        }
    };
    (0..count).map(|_| band(rng)).collect()
}

/// A fault of one line or of their count.
type Fault = fn(&mut Vec<Vec<u8>>, &mut Rng);

const FAULTS: &[(&str, Fault)] = &[
    ("a damaged line", |lines, rng| {
        if let Some(at) = some_line(lines, rng) {
            texts::damage(&mut lines[at], rng);
        }
    }),
    ("a box out of range", |lines, rng| {
        if let Some(at) = some_line(lines, rng) {
            let bounds = texts::bounds(rng);
            let beyond = texts::beyond(rng, bounds);
            lines[at] = line(rng, beyond);
        }
    }),
    ("a side just beyond its limit", |lines, rng| {
        if let Some(at) = some_line(lines, rng) {
            let (side, mut bounds) = (rng.below(4), texts::bounds(rng));
            bounds[side] = rng.pick(&[LIMITS[side] + 1, -LIMITS[side] - 1]);
            lines[at] = line(rng, bounds);
        }
    }),
    ("south just above north", |lines, rng| {
        if let Some(at) = some_line(lines, rng) {
            let [west, south, east, _] = texts::bounds(rng);
            lines[at] = line(rng, [west, south.max(1 - POLE), east, south.max(1 - POLE) - 1]);
        }
    }),
    ("an empty line", |lines, rng| lines.insert(rng.below(lines.len() + 1), Vec::new())),
    ("an empty line at the end", |lines, _| lines.push(Vec::new())),
    ("a line of spaces", |lines, rng| {
        lines.insert(rng.below(lines.len() + 1), rng.pick(&[&b" "[..], b"\t", b"\r", b"  \r"]).to_vec())
    }),
    ("two boxes on a line", |lines, rng| {
        if let Some(at) = some_line(lines, rng) {
            lines[at] = [&lines[at][..], &lines[at][..]].concat();
        }
    }),
    ("noise at the end", |lines, rng| lines.push((0..rng.below(40)).map(|_| rng.bits() as u8).collect())),
];

/// A line: the first one, the last one, the one that is too many, or any.
fn some_line(lines: &[Vec<u8>], rng: &mut Rng) -> Option<usize> {
    let count = lines.len();
    match rng.below(5) {
        _ if count == 0 => None,
        0 => Some(0),
        1 => Some(count - 1),
        2 if count > MOST_LINES => Some(MOST_LINES),
        _ => Some(rng.below(count)),
    }
}

/// Spaces in some lines, until the input has about as many bytes as are looked at, or more.
fn lengthen(lines: &mut [Vec<u8>], rng: &mut Rng) {
    let wanted = match rng.below(4) {
        0 => MOST_BYTES - 2 + rng.below(5),
        1 => MOST_BYTES,
        2 => MOST_BYTES + 1,
        _ => MOST_BYTES + rng.below(30_000),
    };
    while let Some(at) = some_line(lines, rng) {
        // A newline after each line, and no carriage return.
        let length: usize = lines.iter().map(|line| line.len() + 1).sum();
        if length >= wanted {
            return;
        }
        let missing = wanted - length;
        let count = if rng.percent(30) { missing } else { 1 + rng.below(missing) };
        let place = rng.pick(&[0, lines[at].len()]);
        lines[at].splice(place..place, vec![b' '; count]);
    }
}

/// Damage to the whole input.
type Damage = fn(&mut Vec<u8>, &mut Rng);

const DAMAGES: &[(&str, Damage)] = &[
    ("cut off", |bytes, rng| bytes.truncate(rng.below(bytes.len() + 1))),
    ("a newline too many", |bytes, rng| bytes.insert(rng.below(bytes.len() + 1), b'\n')),
    ("a newline lost", |bytes, rng| {
        let newlines: Vec<usize> = (0..bytes.len()).filter(|at| bytes[*at] == b'\n').collect();
        if !newlines.is_empty() {
            bytes.remove(rng.pick(&newlines));
        }
    }),
    ("newlines alone", |bytes, rng| *bytes = vec![b'\n'; 1 + rng.below(3)]),
    ("any byte another", |bytes, rng| {
        if !bytes.is_empty() {
            let at = rng.below(bytes.len());
            bytes[at] = rng.bits() as u8;
        }
    }),
];
