//! Drawing circle intervals, points of the circle, and margins and errors for them. Every interval
//! drawn here is valid.

use std::f64::consts::PI;

use super::number::{edge, eighths, fresh, near, neighbour, up_to};
use crate::base::rng::Rng;
use crate::base::roles::{circle_is_valid, in_reach, seam_as_pi, Role, TWO_PI};

const EMPTY: [f64; 2] = [PI, -PI];
const FULL: [f64; 2] = [-PI, PI];

/// Intervals with something special about them: nearly full or nearly empty ones, some whose length
/// or center rounds oddly, and those of document 01's examples.
pub const KNOWN: &[[u64; 2]] = &[
    [0x4009_21FB_5444_2D18, 0xC009_21FB_5444_2D18], // EMPTY
    [0xC009_21FB_5444_2D18, 0x4009_21FB_5444_2D18], // FULL
    [0xC009_21FB_5444_2D17, 0x4009_21FB_5444_2D18], // all but the gap above -PI
    [0x4009_21FB_5444_2D18, 0xC009_21FB_5444_2D17], // the seam and that gap: its length comes out as -1
    [0xC009_21FB_5444_2D17, 0x4009_21FB_5444_2D17],
    [0x4009_21FB_5444_2D17, 0xC009_21FB_5444_2D17],
    [0x4009_21FB_5444_2D17, 0x4009_21FB_5444_2D18],
    [0x4009_21FB_5444_2D18, 0x4009_21FB_5444_2D17], // nearly full
    [0x4009_21FB_5444_2D18, 0x4009_21FB_5444_2D18], // the seam alone
    [0x0000_0000_0000_0000, 0x8000_0000_0000_0001], // nearly full, its length is 2 PI
    [0x0000_0000_0000_0001, 0x0000_0000_0000_0000],
    [0x8000_0000_0000_0001, 0x0000_0000_0000_0001],
    [0x0000_1268_8B70_E62B, 0x0000_0000_0000_0000], // its center is -PI
    [0x4002_E9E3_2C69_8EDA, 0x3FD2_1ECC_0C7F_87E5], // shrinks to a nearly full one
    [0xBFF0_0000_0000_0000, 0x3FF0_0000_0000_0000], // [-1, 1]
    [0x3FF0_0000_0000_0000, 0xBFF0_0000_0000_0000], // [1, -1]
    [0x4000_0000_0000_0000, 0x3FF0_0000_0000_0000], // [2, 1]
    [0x3FE0_0000_0000_0000, 0x3FD0_0000_0000_0000], // [0.5, 0.25]
    [0x0000_0000_0000_0000, 0x3FF0_0000_0000_0000], // [0, 1]
    [0x3FF0_0000_0000_0000, 0x0000_0000_0000_0000], // [1, 0]
    [0x0000_0000_0000_0000, 0xBFF0_0000_0000_0000], // [0, -1]
    [0x4000_0000_0000_0000, 0xBFF0_0000_0000_0000], // [2, -1]
    [0x0000_0000_0000_0000, 0x0000_0000_0000_0000], // {0}
    [0x0000_0000_0000_0000, 0x4009_21FB_5444_2D18], // [0, PI]
    [0x4009_21FB_5444_2D18, 0x0000_0000_0000_0000], // [PI, 0]
    [0xBFF9_21FB_5444_2D18, 0x3FF9_21FB_5444_2D18], // [-PI/2, PI/2]
    [0x3FF9_21FB_5444_2D18, 0xBFF9_21FB_5444_2D18], // [PI/2, -PI/2]
];

/// A valid interval. `earlier` are the ends of the circle intervals before it, or nothing.
pub fn interval(rng: &mut Rng, earlier: &[f64]) -> [f64; 2] {
    loop {
        let drawn = match earlier {
            [lo, hi, ..] if rng.percent(65) => related_interval(rng, [*lo, *hi]),
            _ => fresh_interval(rng),
        };
        let drawn = with_seam(drawn);
        if circle_is_valid(drawn) {
            return drawn;
        }
    }
}

/// The seam is written PI, but for FULL and EMPTY.
fn with_seam(drawn: [f64; 2]) -> [f64; 2] {
    match drawn {
        EMPTY | FULL => drawn,
        _ => drawn.map(seam_as_pi),
    }
}

fn fresh_interval(rng: &mut Rng) -> [f64; 2] {
    match rng.below(20) {
        0..=1 => EMPTY,
        2..=3 => FULL,
        4..=6 => rng.pick(KNOWN).map(f64::from_bits),
        7..=8 => [number(rng); 2],
        9..=11 => {
            let lo = number(rng);
            [lo, beside(rng, &[lo])]
        }
        _ => [number(rng), number(rng)],
    }
}

/// An interval that has to do with an earlier one: the same, its complement, one that shares an end
/// or nearly so, its mirror image, the opposite one, one that is a little longer or shorter, one with
/// an end on the other side of the seam.
fn related_interval(rng: &mut Rng, [lo, hi]: [f64; 2]) -> [f64; 2] {
    let x = beside(rng, &[lo, hi]);
    match rng.below(22) {
        0..=2 => [lo, hi],
        3..=4 => [hi, lo],
        5 => [lo, x],
        6 => [x, hi],
        7 => [hi, x],
        8 => [x, lo],
        9 => [near(rng, lo), near(rng, hi)],
        10 => [near(rng, hi), near(rng, lo)],
        11 => [-hi, -lo],
        12 => [opposite(lo), opposite(hi)],
        13 => [PI - hi, PI - lo],
        14..=15 => {
            let step = rng.pick(&[1e-14, 2e-14, -1e-14, -2e-14, 1e-3, -1e-3, 0.5, -0.5]);
            [lo + step, hi - rng.pick(&[step, -step, 0.0])]
        }
        16 => [x, x],
        17 => [x, beside(rng, &[lo, hi])],
        18 => [across(lo), across(hi)],
        19 => rng.pick(&[EMPTY, FULL]),
        _ => [x, number(rng)],
    }
}

/// The ends for `new`: any two numbers up to PI in size, -PI often among them.
pub fn ends(rng: &mut Rng) -> [f64; 2] {
    let mut drawn = fresh_interval(rng);
    for x in &mut drawn {
        if rng.percent(15) {
            *x = rng.pick(&[-PI, PI]);
        }
    }
    // What is related to an end may lie beyond PI.
    drawn.map(|x| if x.abs() <= PI { x } else { opposite(x / 2.0) })
}

/// A point of the circle, -PI among them.
pub fn point(rng: &mut Rng, earlier: &[f64]) -> f64 {
    loop {
        let x = if earlier.is_empty() || rng.percent(35) { number(rng) } else { beside(rng, earlier) };
        if x.abs() <= PI {
            return x;
        }
    }
}

/// A margin or an error: often one at which `expanded` or an approximate test changes its mind.
/// `earlier` are the ends of one or two intervals.
pub fn amount(rng: &mut Rng, earlier: &[f64]) -> f64 {
    loop {
        let x = if rng.percent(25) { fresh(rng, Role::Amount) } else { deciding(rng, earlier) };
        if in_reach(x) {
            return x;
        }
    }
}

fn deciding(rng: &mut Rng, earlier: &[f64]) -> f64 {
    let (lo, hi) = (earlier[0], earlier[1]);
    let length = if hi >= lo { hi - lo } else { hi - lo + TWO_PI };
    let (a, b) = (rng.pick(earlier), rng.pick(earlier));
    match rng.below(12) {
        // just empty, just full
        0 => near(rng, -0.5 * length),
        1 => near(rng, 0.5 * (TWO_PI - length)),
        // an end comes to -PI
        2 => lo + PI,
        3 => -(hi + PI),
        4 => neighbour(rng, PI - a.abs()),
        5 => neighbour(rng, -PI + a.abs()),
        // how far ends, or halves of lengths, are apart
        6 => near(rng, (a - b).abs()),
        7 => near(rng, 0.5 * (a - b).abs()),
        8 => -(a - b).abs(),
        // neither
        9 => -rng.unit() * 0.5 * length,
        _ => rng.unit() * 0.5 * (TWO_PI - length),
    }
}

/// A number up to PI in size by itself.
fn number(rng: &mut Rng) -> f64 {
    loop {
        let x = match rng.below(10) {
            0..=4 => edge(rng),
            5 => eighths(rng, PI),
            6 => fresh(rng, Role::CirclePoint),
            _ => up_to(rng, PI),
        };
        if x.abs() <= PI {
            return x;
        }
    }
}

/// A number that has to do with earlier ones: one of them, a neighbour, its negative, its opposite,
/// half way between two or opposite to that, a little off, or the seam. It may lie beyond PI.
fn beside(rng: &mut Rng, earlier: &[f64]) -> f64 {
    let (a, b) = (rng.pick(earlier), rng.pick(earlier));
    match rng.below(12) {
        0..=2 => a,
        3..=4 => neighbour(rng, a),
        5 => -a,
        6 => near(rng, opposite(a)),
        7 => near(rng, 0.5 * (a + b)),
        8 => near(rng, opposite(0.5 * (a + b))),
        9 => a + rng.pick(&[1e-14, -1e-14, 2e-14, -2e-14, 0.25, -0.25]),
        10 => a + rng.unit() * (b - a),
        _ => rng.pick(&[PI, -PI, PI.next_down(), (-PI).next_up()]),
    }
}

/// The nearest double on the other side of the seam, for an end at the seam.
fn across(x: f64) -> f64 {
    if x >= PI.next_down() {
        (-PI).next_up()
    } else if x <= (-PI).next_up() {
        PI
    } else {
        x
    }
}

/// The point half a turn away.
fn opposite(x: f64) -> f64 {
    if x > 0.0 {
        x - PI
    } else {
        x + PI
    }
}
