//! Drawing rectangles, points of latitude and longitude, and margins, sizes and errors for them. Every
//! rectangle drawn here is valid; of the empty ones every kind is drawn.

use std::f64::consts::{FRAC_PI_2, PI};

use super::circle;
use super::number::{edge, eighths, fresh, near, neighbour, out_of_reach, signed, up_to};
use crate::base::rng::Rng;
use crate::base::roles::{in_reach, rect_is_valid, Role, BEYOND, REACH};

const EMPTY_LNG: [f64; 2] = [PI, -PI];
const FULL_LNG: [f64; 2] = [-PI, PI];
const FULL_LAT: [f64; 2] = [-FRAC_PI_2, FRAC_PI_2];

/// Rectangles with something special about them.
pub const KNOWN: &[[f64; 4]] = &[
    [1.0, 0.0, PI, -PI],         // the standard empty one
    [-FRAC_PI_2, -2.0, PI, -PI], // an empty one whose polar closure the crate turns FULL
    [-FRAC_PI_2, -REACH, PI, -PI],
    [FRAC_PI_2, -FRAC_PI_2, PI, -PI],
    [5e-324, 0.0, PI, -PI], // nearly not empty
    [0.0, -5e-324, PI, -PI],
    [-FRAC_PI_2, FRAC_PI_2, -PI, PI],  // the full one
    [-FRAC_PI_2, FRAC_PI_2, 0.0, 0.0], // a meridian
    [FRAC_PI_2, FRAC_PI_2, 0.0, 0.0],  // one of the north pole's places
    [-FRAC_PI_2, -FRAC_PI_2, PI, PI],
    [0.0, 0.0, -PI, PI],  // the equator
    [0.0, 0.0, 0.0, 0.0], // a point
    [0.0, 1.0, 1.0, -1.0],
    [0.0, 1.0, -1.0, 1.0],
];

/// Rectangles that are refused and have several faults, or one that looks like another: which ones, as refusal numbers.
pub const FAULTY: &[[f64; 4]] = &[
    [2.0, 2.0, 4.0, 0.0], // 21 and 22
    [0.0, 2.0, -PI, 0.0],
    [2.0, 0.0, 0.0, 1.0], // 21 and 23
    [0.0, 2.0, PI, -PI],
    [1.0, 0.0, 4.0, 0.0], // 22 and 23
    [1.0, 0.0, -PI, -PI],
    [2.0, 1.0, 4.0, 0.0], // all three
    [-2.0, -3.0, -PI, 4.0],
    [0.0, BEYOND, 0.0, 1.0],   // 1 and 21
    [0.0, 1.0, 0.0, -BEYOND],  // 1 and 22
    [1.0, -BEYOND, 0.0, 1.0],  // 1 and 23
    [2.0, 1.0, 4.0, f64::NAN], // 1 and all three
    [0.0, -2.0, 0.0, 1.0],     // 23 alone: lat.hi has a size over PI/2, but no such value
    [0.0, -2.0, 4.0, 0.0],     // 22 and 23, but not 21
];

/// A valid rectangle. `earlier` are the numbers of the rectangle before it, or nothing.
pub fn rect(rng: &mut Rng, earlier: &[f64]) -> [f64; 4] {
    loop {
        let (lat, lng) = match earlier {
            [a, b, c, d, ..] if rng.percent(75) => {
                (lat_interval(rng, &[*a, *b]), circle::interval(rng, &[*c, *d]))
            }
            _ => fresh_parts(rng),
        };
        let empty = lng == EMPTY_LNG || (!earlier.is_empty() && rng.percent(8));
        let (lat, lng) = if empty { (empty_lat(rng, earlier), EMPTY_LNG) } else { (lat, lng) };
        let drawn = [lat[0], lat[1], lng[0], lng[1]];
        if in_reach(lat[1]) && rect_is_valid(drawn) {
            return drawn;
        }
    }
}

fn fresh_parts(rng: &mut Rng) -> ([f64; 2], [f64; 2]) {
    match rng.below(20) {
        0..=2 => (FULL_LAT, EMPTY_LNG), // becomes an empty one
        3..=5 => (FULL_LAT, FULL_LNG),
        6..=7 => (lat_interval(rng, &[]), FULL_LNG),
        8..=10 => ([lat_number(rng); 2], [circle::point(rng, &[]); 2]),
        11..=12 => {
            let [a, b, c, d] = rng.pick(KNOWN);
            ([a, b], [c, d])
        }
        _ => (lat_interval(rng, &[]), circle::interval(rng, &[])),
    }
}

/// A latitude that is empty: the standard one, or any lo up to PI/2 in size above any hi in reach.
fn empty_lat(rng: &mut Rng, earlier: &[f64]) -> [f64; 2] {
    if rng.percent(30) {
        return [1.0, 0.0];
    }
    let lo = match rng.below(4) {
        0 => -FRAC_PI_2,
        1 => beside(rng, &[0.0, FRAC_PI_2]),
        2 => lat_number(rng),
        _ => beside(rng, earlier.get(..2).unwrap_or(&[1.0, 0.0])),
    };
    let hi = match rng.below(6) {
        0 => lo.next_down(),
        1 => lo - rng.unit(),
        2 => -REACH,
        3 => rng.pick(&[-2.0, -PI, -1e9, -FRAC_PI_2]),
        4 => lat_number(rng),
        _ => fresh(rng, Role::Line),
    };
    [lo, hi]
}

/// A latitude that is not empty. `earlier` are the ends of the one before it, or nothing.
pub fn lat_interval(rng: &mut Rng, earlier: &[f64]) -> [f64; 2] {
    let drawn = match earlier {
        [lo, hi] => match rng.below(16) {
            0..=3 => [*lo, *hi],
            4 => [*lo, beside(rng, earlier)],
            5 => [beside(rng, earlier), *hi],
            6 => [*hi, lat_number(rng)],
            7 => [*lo, lat_number(rng)],
            8 => [near(rng, *lo), near(rng, *hi)],
            9 => [lo.next_up(), hi.next_down()],
            10 => [lo + 1e-14, hi + rng.pick(&[1e-14, -1e-14, 2e-14])],
            11..=12 => [lo + rng.unit() * (hi - lo), lo + rng.unit() * (hi - lo)],
            13 => [beside(rng, earlier); 2],
            _ => [lat_number(rng), lat_number(rng)],
        },
        _ => match rng.below(8) {
            0 => FULL_LAT,
            1 => [-FRAC_PI_2, lat_number(rng)],
            2 => [lat_number(rng), FRAC_PI_2],
            3 => [lat_number(rng); 2],
            _ => [lat_number(rng), lat_number(rng)],
        },
    };
    if drawn[0] <= drawn[1] {
        drawn
    } else {
        [drawn[1], drawn[0]]
    }
}

/// A valid point. `lats` and `lngs` are the earlier numbers of the question, of each kind.
pub fn point(rng: &mut Rng, lats: &[f64], lngs: &[f64]) -> [f64; 2] {
    let lat = loop {
        let x = if lats.is_empty() || rng.percent(25) { lat_number(rng) } else { beside(rng, lats) };
        if x.abs() <= FRAC_PI_2 {
            break x;
        }
    };
    [lat, circle::point(rng, lngs)]
}

/// Margins, sizes or errors for latitude and longitude.
pub fn amounts(rng: &mut Rng, lats: &[f64], lngs: &[f64]) -> [f64; 2] {
    let lng = match lngs {
        // Of a single point: the margins of an interval that holds just it, and twice these.
        [x] => rng.pick(&[1.0, 2.0]) * circle::amount(rng, &[*x, *x]),
        _ => circle::amount(rng, lngs),
    };
    let drawn = [lat_amount(rng, lats), lng];
    if drawn.iter().all(|x| in_reach(*x)) {
        drawn
    } else {
        amounts(rng, lats, lngs)
    }
}

/// Often one at which an end comes to a pole, the interval becomes empty or an error just suffices.
fn lat_amount(rng: &mut Rng, lats: &[f64]) -> f64 {
    let (a, b) = (rng.pick(lats), rng.pick(lats));
    let x = match rng.below(9) {
        0..=1 => fresh(rng, Role::Amount),
        2 => FRAC_PI_2 - a.abs(),
        3 => FRAC_PI_2 + a.abs(),
        4 => (a - b).abs(),
        5..=6 => 0.5 * (a - b).abs(),
        _ => rng.unit(),
    };
    let x = near(rng, x);
    signed(rng, x)
}

/// Mostly a number that needs no reduction modulo 4, or nearly the largest.
pub fn vertex_number(rng: &mut Rng) -> f64 {
    let number = match rng.below(4) {
        0..=1 => rng.below(4),
        2 => rng.below(256),
        _ => rng.pick(&[4, 5, 6, 7, 252, 253, 254, 255]),
    };
    number as f64
}

/// A latitude by itself.
fn lat_number(rng: &mut Rng) -> f64 {
    loop {
        let x = match rng.below(8) {
            0..=2 => edge(rng),
            3 => {
                let pole = signed(rng, FRAC_PI_2);
                near(rng, pole)
            }
            4 => eighths(rng, FRAC_PI_2),
            _ => up_to(rng, FRAC_PI_2),
        };
        if x.abs() <= FRAC_PI_2 {
            return x;
        }
    }
}

/// A number that has to do with earlier latitudes. It may lie beyond a pole.
fn beside(rng: &mut Rng, earlier: &[f64]) -> f64 {
    let (a, b) = (rng.pick(earlier), rng.pick(earlier));
    match rng.below(10) {
        0..=2 => a,
        3..=4 => neighbour(rng, a),
        5 => -a,
        6 => near(rng, 0.5 * (a + b)),
        7..=8 => a + rng.unit() * (b - a),
        _ => rng.pick(&[FRAC_PI_2, -FRAC_PI_2, FRAC_PI_2.next_down(), 0.0]),
    }
}

/// Makes one part of a rectangle empty and not the other, or fills one part of an empty one.
pub fn half_empty(rng: &mut Rng, rect: &mut [f64]) {
    let was_empty = rect[0] > rect[1];
    match (was_empty, rng.percent(50)) {
        (true, true) => rect[..2].copy_from_slice(&lat_interval(rng, &[])),
        (true, false) => rect[2..].copy_from_slice(&rng.pick(&[FULL_LNG, [0.0, 1.0], [1.0, -1.0], [PI, PI]])),
        (false, true) => rect[..2].copy_from_slice(&empty_lat(rng, &[])),
        (false, false) => rect[2..].copy_from_slice(&EMPTY_LNG),
    }
}

/// A number that a rectangle or a point does not take as a latitude.
pub fn no_latitude(rng: &mut Rng) -> f64 {
    if rng.percent(50) {
        return out_of_reach(rng);
    }
    let x = rng.pick(&[FRAC_PI_2.next_up(), FRAC_PI_2.next_up(), 1.6, 2.0, PI, 1e9, REACH]);
    signed(rng, x)
}
