//! Drawing lists of rectangles for the common region. Rectangles drawn one by one seldom have a place
//! in common, so most lists take the ends of their longitudes from a few numbers and their neighbours.

use std::f64::consts::{FRAC_PI_2, PI};

use super::question::{needed, Question, MOST_NUMBERS, MOST_RECTS};
use crate::base::answer::OF_RECT;
use crate::base::rng::Rng;
use crate::base::roles::{Rect, EMPTY, FULL};
use crate::draw::{bad_rect, circle, neighbour, rect, spoil_some};
use crate::kind::SHORT;

/// A question with a list of at most eight entries.
pub fn short(rng: &mut Rng) -> Question {
    let count = rng.below(SHORT + 1);
    let mut rects = few(rng, count);
    if rng.percent(6) {
        spoil(rng, &mut rects);
    }
    let mut numbers = rects.concat();
    if rng.percent(2) {
        // The length is looked at before any entry.
        (0..1 + rng.below(3)).for_each(|_| numbers.push(rng.pick(&[0.0, 1.0, f64::NAN])));
    }
    let room = room(rng, &numbers);
    Question { room, numbers }
}

/// A question with a long list: often of the most entries, now and then of one too many.
pub fn long(rng: &mut Rng) -> Question {
    let count = match rng.below(8) {
        0..=1 => MOST_RECTS,
        2 => MOST_RECTS + 1,
        _ => SHORT + 1 + rng.below(MOST_RECTS - SHORT),
    };
    let mut rects = many(rng, count);
    if rng.percent(15) {
        spoil(rng, &mut rects);
    }
    let numbers = rects.concat();
    let room = room(rng, &numbers);
    Question { room, numbers }
}

/// Makes an entry one that is refused, now and then two.
fn spoil(rng: &mut Rng, rects: &mut [Rect]) {
    spoil_some(rng, rects.len(), |rng, at| {
        let number = rng.pick(&OF_RECT);
        rects[at] = bad_rect(rng, number);
    });
}

/// Mostly just room enough, sometimes more, sometimes from none to one short.
fn room(rng: &mut Rng, numbers: &[f64]) -> usize {
    let needed = needed(numbers);
    let room = match rng.below(20) {
        0..=1 if needed > 0 => rng.below(needed),
        2 if needed > 0 => needed - 1,
        0..=12 if needed > 0 => needed,
        // Where nothing is written there is room too, to see that it stays as it was.
        0..=18 => needed + rng.below(9),
        _ => numbers.len() + 4,
    };
    room.min(MOST_NUMBERS)
}

/// Valid rectangles, mostly with a notch of their own each: so as many as these have places in common.
pub fn many(rng: &mut Rng, count: usize) -> Vec<Rect> {
    if rng.percent(70) {
        notched(rng, count)
    } else {
        few(rng, count)
    }
}

/// Valid rectangles that have to do with one another.
pub fn few(rng: &mut Rng, count: usize) -> Vec<Rect> {
    let mut rects = match rng.below(10) {
        0 => freely(rng, count),
        1..=4 => notched(rng, count),
        _ => from_few_ends(rng, count),
    };
    // An entry of another kind: all round, empty, a single point, any.
    for _ in 0..rng.pick(&[0, 0, 1, 2]) {
        if let Some(entry) = (count > 0).then(|| rng.below(count)) {
            rects[entry] = special(rng, rects[entry]);
        }
    }
    rects
}

/// Each one drawn beside any earlier one.
fn freely(rng: &mut Rng, count: usize) -> Vec<Rect> {
    let mut rects: Vec<Rect> = Vec::new();
    for _ in 0..count {
        let earlier = if rects.is_empty() { Vec::new() } else { rng.pick(&rects).to_vec() };
        rects.push(rect::rect(rng, &earlier));
    }
    rects
}

fn special(rng: &mut Rng, [lat_lo, lat_hi, lo, hi]: Rect) -> Rect {
    match rng.below(12) {
        0..=2 => FULL,
        3..=4 => [lat_lo, lat_hi, -PI, PI],
        5 => EMPTY,
        6..=7 if lo != -PI => [lat_lo, lat_hi, lo, lo],
        8..=9 if lo != -PI => [lat_lo, lat_hi, hi, lo], // meets the entry that was here at both ends
        _ => rect::rect(rng, &[lat_lo, lat_hi, lo, hi]),
    }
}

/// Ends from a few numbers and their neighbours: ends are shared or nearly so, zones meet at both ends.
fn from_few_ends(rng: &mut Rng, count: usize) -> Vec<Rect> {
    let few = few_ends(rng);
    let lats = lats(rng, count);
    let mut arcs: Vec<[f64; 2]> = (0..count).map(|_| [rng.pick(&few), rng.pick(&few)]).collect();
    if rng.percent(50) {
        // All but the first again and again: so more than two often have something in common.
        let [lo, hi] = [rng.pick(&few), rng.pick(&few)];
        arcs.iter_mut().skip(1).for_each(|arc| *arc = rng.pick(&[[lo, hi], [hi, lo], [lo, hi], *arc]));
    }
    arcs.iter().zip(lats).map(|([lo, hi], lat)| [lat[0], lat[1], *lo, *hi]).collect()
}

fn few_ends(rng: &mut Rng) -> Vec<f64> {
    let mut few = vec![seam_as_pi(circle::point(rng, &[]))];
    for _ in 0..1 + rng.below(5) {
        let from = rng.pick(&few);
        let x = if rng.percent(40) { neighbour(rng, from) } else { circle::point(rng, &few) };
        few.push(seam_as_pi(x));
    }
    few
}

/// The seam is written PI. What lies beyond it is taken for the seam too.
fn seam_as_pi(x: f64) -> f64 {
    if x.abs() < PI {
        x
    } else {
        PI
    }
}

/// Nearly the whole circle, each with a notch of its own: as many pieces as notches that do not meet.
/// Some notches begin where another ends, so that a single point is left between them.
fn notched(rng: &mut Rng, count: usize) -> Vec<Rect> {
    let lats = lats(rng, count);
    let narrow = rng.percent(50);
    let mut last = PI;
    let mut rects = Vec::new();
    for lat in lats {
        let from = if rng.percent(20) { last } else { seam_as_pi((2.0 * rng.unit() - 1.0) * PI) };
        let to = match rng.below(4) {
            _ if from == PI => (-PI).next_up(),
            0 => from.next_up(),
            _ if narrow => from + rng.unit() * 1e-3,
            _ => from + rng.unit(),
        };
        last = seam_as_pi(to);
        rects.push([lat[0], lat[1], last, from]);
    }
    rects
}

/// Latitudes that mostly all hold one band.
fn lats(rng: &mut Rng, count: usize) -> Vec<[f64; 2]> {
    let [lo, hi] = rect::lat_interval(rng, &[]);
    let meeting = rng.percent(90);
    let one = |rng: &mut Rng| match rect::lat_interval(rng, &[lo, hi]) {
        _ if rng.percent(30) => [lo, hi],
        // A comparison, not `min`: that may return either zero.
        [a, b] if meeting => [if a < lo { a } else { lo }, if b > hi { b } else { hi }],
        drawn => drawn,
    };
    let inside = |[a, b]: [f64; 2]| [a.max(-FRAC_PI_2), b.min(FRAC_PI_2)];
    (0..count)
        .map(|_| inside(one(rng)))
        .map(|[a, b]| if a <= b { [a, b] } else { [-FRAC_PI_2, FRAC_PI_2] })
        .collect()
}
