//! Single numbers: mostly edge values and their neighbours, and numbers that stand in a relation to earlier ones.

use crate::base::rng::Rng;
use crate::base::roles::{Role, REACH, REMAINDER_REACH, TWO_PI};

/// Edge values in reach, as bit patterns. Signs and neighbours are added when one is drawn.
pub const EDGES: &[u64] = &[
    0x0000_0000_0000_0000, // 0
    0x0000_0000_0000_0001, // the smallest subnormal
    0x0000_0000_0000_0003, 0x000F_FFFF_FFFF_FFFF, // the largest subnormal
    0x0010_0000_0000_0000, // the smallest normal
    0x3CB0_0000_0000_0000, // DBL_EPSILON
    0x3D06_849B_86A1_2B9B, // EPSILON, 1e-14
    0x3D16_849B_86A1_2B9B, // twice EPSILON
    0x3FB9_9999_9999_999A, // 0.1
    0x3FD5_5555_5555_5555, // a third
    0x3FE0_0000_0000_0000, // 0.5
    0x3FF0_0000_0000_0000, // 1
    0x3FF9_21FB_5444_2D18, // PI/2
    0x4000_0000_0000_0000, // 2
    0x4009_21FB_5444_2D18, // PI
    0x4019_21FB_5444_2D18, // 2 PI
    0x4022_D97C_7F33_21D2, // 3 PI
    0x4029_21FB_5444_2D18, // 4 PI
    0x4340_0000_0000_0000, // 2^53
    0x5BE0_0000_0000_0000, // 2^447, half a step at 2^500
    0x5BE0_0000_0000_0001, 0x5F20_0000_0000_0000, // 2^499
    0x5F2F_FFFF_FFFF_FFFF, // just in reach
    0x5F30_0000_0000_0000, // 2^500
];

/// Numbers out of reach: too large, infinite, or NaN of several payloads and both signs.
pub const OUTSIDE: &[u64] = &[
    0x5F30_0000_0000_0001, // the next double above 2^500
    0xDF30_0000_0000_0001, 0x5F40_0000_0000_0000, 0xE7E8_0000_0000_0000,
    0x7FEF_FFFF_FFFF_FFFF, // the largest double
    0xFFEF_FFFF_FFFF_FFFF, 0x7FF0_0000_0000_0000, // infinity
    0xFFF0_0000_0000_0000, 0x7FF8_0000_0000_0000, // NaN
    0xFFF8_0000_0000_0000, 0x7FF0_0000_0000_0001, // signalling
    0xFFF0_0000_0000_0001, 0x7FF4_0000_DEAD_BEEF, 0x7FFF_FFFF_FFFF_FFFF, 0xFFFF_FFFF_FFFF_FFFF,
];

/// Multiples of PI/4 up to 4 PI lie around every place where `remainder` changes its mind.
const QUARTER_TURN: f64 = TWO_PI / 8.0;

pub fn related_or_fresh(rng: &mut Rng, role: Role, earlier: &[f64]) -> f64 {
    loop {
        let x = if !earlier.is_empty() && rng.percent(50) { related(rng, earlier) } else { fresh(rng, role) };
        if x.abs() <= role.largest()[0] {
            return x;
        }
    }
}

/// A number that has to do with earlier ones of the question.
pub fn related(rng: &mut Rng, earlier: &[f64]) -> f64 {
    let (a, b) = (rng.pick(earlier), rng.pick(earlier));
    match rng.below(12) {
        0..=2 => a,
        3 => neighbour(rng, a),
        4 => -a,
        5 => a - b,
        6 => (a - b).abs(),
        7 => 0.5 * (a - b).abs(),
        8 => neighbour(rng, 0.5 * (a - b)),
        9 => 0.5 * a + 0.5 * b,
        10 => a + b,
        _ => a + rng.pick(&[1e-14, -1e-14, 2e-14, -2e-14, 1.0, -1.0]),
    }
}

/// One or two doubles up or down.
pub fn neighbour(rng: &mut Rng, x: f64) -> f64 {
    match rng.below(4) {
        0 => x.next_up(),
        1 => x.next_down(),
        2 => x.next_up().next_up(),
        _ => x.next_down().next_down(),
    }
}

pub fn signed(rng: &mut Rng, x: f64) -> f64 {
    if rng.percent(50) {
        x
    } else {
        -x
    }
}

/// Any number up to a limit, of either sign.
pub fn up_to(rng: &mut Rng, limit: f64) -> f64 {
    let x = rng.unit() * limit;
    signed(rng, x)
}

/// So many eighths of a limit, of either sign.
pub fn eighths(rng: &mut Rng, limit: f64) -> f64 {
    let x = limit / 8.0 * rng.below(9) as f64;
    signed(rng, x)
}

/// A number by itself.
pub fn fresh(rng: &mut Rng, role: Role) -> f64 {
    match role {
        Role::RemainderArgument if rng.percent(60) => {
            let edge = rng.below(17) as f64 * QUARTER_TURN;
            let x = signed(rng, edge);
            near(rng, x)
        }
        Role::RemainderArgument if rng.percent(50) => up_to(rng, REMAINDER_REACH),
        _ if rng.percent(60) => edge(rng),
        _ => scaled(rng),
    }
}

/// An edge value or a neighbour of one, of either sign.
pub fn edge(rng: &mut Rng) -> f64 {
    let edge = f64::from_bits(rng.pick(EDGES));
    let x = signed(rng, edge);
    near(rng, x)
}

/// The number itself, mostly, or a neighbour.
pub fn near(rng: &mut Rng, x: f64) -> f64 {
    if rng.percent(60) {
        x
    } else {
        neighbour(rng, x)
    }
}

/// A random number of one of several scales.
pub fn scaled(rng: &mut Rng) -> f64 {
    let x = match rng.below(5) {
        0 => rng.below(33) as f64 / 8.0,
        1 => rng.unit() * 4.0,
        2 => f64::from_bits(rng.bits() >> 12),
        3 => rng.unit() * 3e-14,
        _ => f64::from_bits(rng.bits() % REACH.to_bits()),
    };
    signed(rng, x)
}

/// A number out of reach.
pub fn out_of_reach(rng: &mut Rng) -> f64 {
    f64::from_bits(rng.pick(OUTSIDE))
}
