//! The arms of the functions that give an interval or a number.

use std::f64::consts::PI;

use super::operands::{a, b, p, SEAM_READ};
use crate::base::roles::{seam_as_pi, TWO_PI};
use crate::kind::arms::Arms::{self, Each, First, Of};
use crate::kinds::r1::arms::rounded;
use crate::kinds::s1::arc::{east, half_turn, Arc};

pub const NEW: &[Arms] = &[First(&[
    ("lo -PI, FULL", |n| a(n).full()),
    ("lo -PI made PI", |n| n[0] == -PI && n[1] != -PI),
    ("hi -PI, EMPTY", |n| a(n).empty()),
    ("hi -PI made PI", |n| n[0] != -PI && n[1] == -PI),
    ("both -PI", |n| n[0] == -PI),
    ("kept", |_| true),
])];

pub const FROM_POINT_PAIR: &[Arms] = &[
    Each(&[("a is -PI", |n| n[0] == -PI), ("b is -PI", |n| n[1] == -PI)]),
    Of(
        &[
            First(&[
                ("a to b", |n| east(n[0], n[1]) < PI),
                ("b to a", |n| east(n[0], n[1]) > PI),
                ("a to b, exactly PI", |_| true),
            ]),
            First(&[("straight", |n| n[1] - n[0] >= 0.0), ("around", |_| true)]),
        ],
        |n| Some(vec![seam_as_pi(n[0]), seam_as_pi(n[1])]),
    ),
];

pub const CENTER: &[Arms] = &[
    First(&[
        ("not inverted", |n| !a(n).inverted()),
        ("inverted, c <= 0", |n| middle(n) <= 0.0),
        ("inverted, c > 0", |_| true),
    ]),
    Each(&[
        ("sum rounded", |n| rounded(n[0], n[1])),
        ("half rounded", |n| middle(n) * 2.0 != n[0] + n[1]),
        ("turned and rounded", |n| a(n).inverted() && rounded(middle(n), half_turn(middle(n)))),
        ("gives -PI", |n| a(n).center() == -PI),
        ("gives PI", |n| a(n).center() == PI),
        ("FULL", |n| a(n).full()),
        ("EMPTY", |n| a(n).empty()),
    ]),
];

fn middle(n: &[f64]) -> f64 {
    0.5 * (n[0] + n[1])
}

pub const LEN: &[Arms] = &[
    First(&[
        ("straight", |n| n[1] - n[0] >= 0.0 && !rounded(n[1], -n[0])),
        ("straight, rounded", |n| n[1] - n[0] >= 0.0),
        ("around", |n| n[1] - n[0] + TWO_PI > 0.0 && !rounded(n[1], -n[0]) && !rounded(n[1] - n[0], TWO_PI)),
        ("around, rounded", |n| n[1] - n[0] + TWO_PI > 0.0),
        ("EMPTY", |n| a(n).empty()),
        ("-1, though not empty", |_| true),
    ]),
    Each(&[("2 PI, though not full", |n| a(n).len() == TWO_PI && !a(n).full())]),
];

/// Whether the first holds both ends of the second.
fn both_held(n: &[f64]) -> bool {
    a(n).holds(n[2]) && a(n).holds(n[3])
}

pub const UNION: &[Arms] = &[First(&[
    ("other empty", |n| b(n).empty()),
    ("both ends held, all held", |n| both_held(n) && a(n).holds_all(b(n))),
    ("both ends held, FULL", |n| both_held(n)),
    ("only lo held", |n| a(n).holds(n[2])),
    ("only hi held", |n| a(n).holds(n[3])),
    ("own empty", |n| a(n).empty()),
    ("other holds own", |n| b(n).holds(n[0])),
    ("gap before own shorter", |n| east(n[3], n[0]) < east(n[1], n[2])),
    ("gap after own shorter", |n| east(n[1], n[2]) < east(n[3], n[0])),
    ("gaps alike", |_| true),
])];

pub const INTERSECTION: &[Arms] = &[First(&[
    ("other empty", |n| b(n).empty()),
    ("both ends held, other shorter", |n| both_held(n) && b(n).len() < a(n).len()),
    ("both ends held, own shorter", |n| both_held(n) && a(n).len() < b(n).len()),
    ("both ends held, lengths alike", |n| both_held(n)),
    ("only lo held", |n| a(n).holds(n[2])),
    ("only hi held", |n| a(n).holds(n[3])),
    ("other holds own", |n| b(n).holds(n[0])),
    ("apart", |_| true),
])];

/// Of an interval and a margin. The crate's last test, whether lo is still -PI, has no arm: hi would have to be
/// PI, and then the test for FULL was met. Each end is off by at most 2^-52 and the length by 2^-51, so the sum
/// is at least 2 PI - 2^-50, and the allowance lifts that to 2 PI.
pub const EXPANDED: &[Arms] = &[
    First(&[
        ("grown, empty", |n| n[2] >= 0.0 && a(n).empty()),
        ("grown to FULL", |n| n[2] >= 0.0 && a(n).moved(n[2]) >= TWO_PI),
        ("grown to FULL, by the allowance alone", |n| n[2] >= 0.0 && a(n).expands_to_full(n[2])),
        ("shrunk, full", |n| n[2] < 0.0 && a(n).full()),
        ("shrunk to EMPTY", |n| n[2] < 0.0 && a(n).moved(n[2]) <= 0.0),
        ("shrunk to EMPTY, by the allowance alone", |n| n[2] < 0.0 && a(n).expands_to_empty(n[2])),
        ("grown", |n| n[2] >= 0.0),
        ("shrunk", |_| true),
    ]),
    Each(&[
        ("margin 0", |n| n[2] == 0.0),
        ("lo turns", |n| moves(n) && (n[0] - n[2]).abs() > PI),
        ("hi turns", |n| moves(n) && (n[1] + n[2]).abs() > PI),
        ("lo comes to -PI", |n| moves(n) && n[0] - n[2] == -PI),
        ("hi comes to -PI", |n| moves(n) && n[1] + n[2] == -PI),
        ("lo rounded", |n| moves(n) && rounded(n[0], -n[2])),
        ("hi rounded", |n| moves(n) && rounded(n[1], n[2])),
        ("length -1, though not empty", |n| a(n).len() == -1.0 && !a(n).empty()),
    ]),
];

/// Whether `expanded` moves the ends.
fn moves(n: &[f64]) -> bool {
    !a(n).expands_to_empty(n[2]) && !a(n).expands_to_full(n[2])
}

pub const COMPLEMENT: &[Arms] = &[First(&[
    ("a point", |n| n[0] == n[1]),
    ("FULL", |n| a(n).full()),
    ("EMPTY", |n| a(n).empty()),
    ("swapped", |_| true),
])];

/// The arms of the complement's center, but for a point.
pub const COMPLEMENT_CENTER: &[Arms] = &[
    Of(CENTER, |n| (n[0] != n[1]).then(|| vec![n[1], n[0]])),
    Of(
        &[
            First(&[("a point, hi <= 0", |n| n[1] <= 0.0), ("a point, hi > 0", |_| true)]),
            Each(&[("a point, rounded", |n| rounded(n[1], half_turn(n[1])))]),
        ],
        |n| (n[0] == n[1]).then(|| n.to_vec()),
    ),
];

pub const HAUSDORFF: &[Arms] = &[
    First(&[("held", |n| b(n).holds_all(a(n))), ("other empty", |n| b(n).empty())]),
    Of(
        &[
            Each(&[("reaches the far point", |n| reaches(n)), ("the far point is -PI", |n| far(n) == -PI)]),
            Of(WITHIN_REACH, |n| (!reaches(n)).then(|| n.to_vec())),
        ],
        |n| (!b(n).holds_all(a(n)) && !b(n).empty()).then(|| n.to_vec()),
    ),
];

const WITHIN_REACH: &[Arms] = &[
    First(&[("hi within reach of hi", |n| beyond_hi(n)), ("hi elsewhere", |_| true)]),
    First(&[("lo within reach of lo", |n| before_lo(n)), ("lo elsewhere", |_| true)]),
    First(&[
        ("by hi", |n| by_hi(n) > by_lo(n)),
        ("by lo", |n| by_lo(n) > by_hi(n)),
        ("both ways alike", |_| true),
    ]),
];

/// The point farthest from the second interval, and whether the first one reaches it.
fn far(n: &[f64]) -> f64 {
    b(n).complement_center()
}

fn reaches(n: &[f64]) -> bool {
    a(n).holds(seam_as_pi(far(n)))
}

/// Whether the first's hi lies between the second's and the far point, and how far from it; the same of lo.
fn beyond_hi(n: &[f64]) -> bool {
    Arc::normalised(n[3], far(n)).holds(seam_as_pi(n[1]))
}

fn before_lo(n: &[f64]) -> bool {
    Arc::normalised(far(n), n[2]).holds(seam_as_pi(n[0]))
}

fn by_hi(n: &[f64]) -> f64 {
    if beyond_hi(n) {
        east(n[3], n[1])
    } else {
        0.0
    }
}

fn by_lo(n: &[f64]) -> f64 {
    if before_lo(n) {
        east(n[0], n[2])
    } else {
        0.0
    }
}

pub const ADD: &[Arms] = &[
    SEAM_READ,
    First(&[
        ("held", |n| a(n).holds(p(n))),
        ("empty", |n| a(n).empty()),
        ("lo moves", |n| east(p(n), n[0]) < east(n[1], p(n))),
        ("hi moves", |n| east(n[1], p(n)) < east(p(n), n[0])),
        ("hi moves, both alike", |_| true),
    ]),
];

/// Of two points.
pub const POSITIVE_DISTANCE: &[Arms] = &[First(&[
    ("straight", |n| n[1] - n[0] >= 0.0 && !rounded(n[1], -n[0])),
    ("straight, rounded", |n| n[1] - n[0] >= 0.0),
    ("around", |n| !(rounded(n[1], PI) || rounded(n[0], -PI) || rounded(n[1] + PI, -(n[0] - PI)))),
    ("around, rounded", |_| true),
])];
