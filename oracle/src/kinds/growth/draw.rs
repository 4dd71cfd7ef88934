//! Drawing lists of points with the rectangle that they enlarge. Points have to do with the numbers before
//! them: those of the start and of earlier points. Most lists are accepted; in the others the start, some
//! points or the length is bad, at times two of these.

use std::f64::consts::{FRAC_PI_2, PI};

use super::question::{Question, Way, MOST_POINTS};
use crate::base::answer::{OUT_OF_REACH, WHY_NOT_VALID};
use crate::base::rng::Rng;
use crate::base::roles::{Rect, Role};
use crate::draw::{bad_rect, outside, rect, spoil_some};
use crate::kind::SHORT;

/// A question with a list of at most eight points.
pub fn short(rng: &mut Rng, way: Way) -> Question {
    let start = start(rng);
    let count = rng.below(SHORT + 1);
    let mut numbers = related(rng, start, count);
    // A bad point costs growth the whole list, and a running box that call alone.
    if rng.percent(if way == Way::Growth { 8 } else { 30 }) {
        spoil(rng, &mut numbers);
    }
    if way == Way::Growth && rng.percent(2) {
        numbers.push(rng.pick(&[0.0, -0.0, 1.0, f64::NAN]));
    }
    Question { way, start, numbers }
}

/// A question with a long list: often of the most points, now and then of one too many, or for growth of an
/// odd count of numbers.
pub fn long(rng: &mut Rng, way: Way) -> Question {
    let start = start(rng);
    let kind = rng.below(8);
    let count = match kind {
        0..=1 => MOST_POINTS,
        2 => MOST_POINTS + 1,
        3 => MOST_POINTS - rng.below(2),
        _ => SHORT + 1 + rng.below(MOST_POINTS - SHORT),
    };
    let mut numbers = if rng.percent(60) { path(rng, count) } else { related(rng, start, count) };
    if rng.percent(15) {
        spoil(rng, &mut numbers);
    }
    if kind == 3 && way == Way::Growth {
        numbers.push(0.0);
    }
    Question { way, start, numbers }
}

/// A valid rectangle mostly, empty ones of every kind among them; some with a negative zero.
fn start(rng: &mut Rng) -> Rect {
    let number = rng.pick(&WHY_NOT_VALID);
    let drawn = match rng.below(100) {
        0..=2 => bad_rect(rng, OUT_OF_REACH),
        3..=5 => bad_rect(rng, number),
        _ => rect::rect(rng, &[]),
    };
    if rng.percent(20) {
        negative_zeros(rng, drawn)
    } else {
        drawn
    }
}

/// The same rectangle with -0 for some numbers, where that leaves it as good or as bad as it is.
pub fn negative_zeros(rng: &mut Rng, rect: Rect) -> Rect {
    let changed = rect.map(|x| if x == 0.0 || rng.percent(30) { -0.0 } else { x });
    if Role::Rect.fault(&changed) == Role::Rect.fault(&rect) {
        changed
    } else {
        rect
    }
}

/// Valid points, each drawn beside the numbers before it.
fn related(rng: &mut Rng, start: Rect, count: usize) -> Vec<f64> {
    let (mut lats, mut lngs) = (start[..2].to_vec(), start[2..].to_vec());
    let mut numbers = Vec::new();
    for _ in 0..count {
        let [lat, lng] = rect::point(rng, &lats, &lngs);
        lats.push(lat);
        lngs.push(lng);
        numbers.extend([lat, lng]);
    }
    numbers
}

/// A path of small steps from anywhere, east or west, north or south: it may go over the seam, and it
/// ends at a pole or before. So nearly every point enlarges the box.
fn path(rng: &mut Rng, count: usize) -> Vec<f64> {
    let [mut lat, mut lng] = rect::point(rng, &[], &[]);
    let [north, east] = [2.0 * rng.unit() - 1.0, 2.0 * rng.unit() - 1.0].map(|all| 3.0 * all / count as f64);
    let mut numbers = Vec::new();
    for _ in 0..count {
        numbers.extend([lat, lng]);
        lat = (lat + north * rng.unit()).clamp(-FRAC_PI_2, FRAC_PI_2);
        lng = onto_circle(lng + east * rng.unit());
    }
    numbers
}

/// A number a little beyond the seam, brought back from the other side.
pub fn onto_circle(x: f64) -> f64 {
    let turned = if x > PI { x - 2.0 * PI } else { x };
    (if turned < -PI { turned + 2.0 * PI } else { turned }).clamp(-PI, PI)
}

/// Makes a number of a point one that no point has, now and then of two points.
fn spoil(rng: &mut Rng, numbers: &mut [f64]) {
    spoil_some(rng, numbers.len() / 2, |rng, at| {
        let place = rng.below(2);
        numbers[2 * at + place] = outside(rng, Role::LatLng, place);
    });
}
