//! The arms of the functions in the crate's `src/r1/interval.rs`, told from their own conditions.
//!
//! A chain of `&&` has an arm for each condition that ends it. `min` and `max` have an arm for each
//! operand that they take and one for a tie. Arithmetic has an arm for a rounded result, so that the
//! comparison really sees rounding. Nothing here calls a function of the crate.

use s2::consts::EPSILON;

use crate::base::roles::in_reach;
use crate::kind::arms::Arms::{self, Each, First, Of};

/// Whether the interval that comes first is empty, and the one that comes second.
fn a_empty(n: &[f64]) -> bool {
    n[0] > n[1]
}

fn b_empty(n: &[f64]) -> bool {
    n[2] > n[3]
}

/// Whether a + b is rounded: Knuth's exact error of a sum, which does not overflow in reach.
pub fn rounded(a: f64, b: f64) -> bool {
    let sum = a + b;
    let part = sum - a;
    (a - (sum - part)) + (b - part) != 0.0
}

pub const FROM_POINT_PAIR: &[Arms] = &[First(&[("p1 <= p2", |n| n[0] <= n[1]), ("p1 > p2", |_| true)])];

pub const CENTER: &[Arms] = &[
    First(&[("sum rounded", |n| rounded(n[0], n[1])), ("sum exact", |_| true)]),
    Each(&[
        ("half rounded", |n| 0.5 * (n[0] + n[1]) * 2.0 != n[0] + n[1]),
        ("of an empty one", |n| a_empty(n)),
    ]),
];

pub const LEN: &[Arms] = &[
    First(&[("rounded", |n| rounded(n[1], -n[0])), ("exact", |_| true)]),
    First(&[("negative", |n| n[1] < n[0]), ("zero", |n| n[1] == n[0]), ("positive", |_| true)]),
];

pub const CONTAINS: &[Arms] =
    &[First(&[("below lo", |n| n[0] > n[2]), ("above hi", |n| n[2] > n[1]), ("held", |_| true)])];

pub const INTERIOR_CONTAINS: &[Arms] =
    &[First(&[("not above lo", |n| n[0] >= n[2]), ("not below hi", |n| n[2] >= n[1]), ("held", |_| true)])];

pub const CONTAINS_INTERVAL: &[Arms] = &[First(&[
    ("other empty", |n| b_empty(n)),
    ("lo below", |n| n[0] > n[2]),
    ("hi above", |n| n[3] > n[1]),
    ("held", |_| true),
])];

pub const INTERIOR_CONTAINS_INTERVAL: &[Arms] = &[First(&[
    ("other empty", |n| b_empty(n)),
    ("lo not above", |n| n[0] >= n[2]),
    ("hi not below", |n| n[3] >= n[1]),
    ("held", |_| true),
])];

pub const INTERSECTS: &[Arms] = &[First(&[
    ("own lo first, other beyond", |n| n[0] <= n[2] && n[2] > n[1]),
    ("own lo first, other empty", |n| n[0] <= n[2] && b_empty(n)),
    ("own lo first, meets", |n| n[0] <= n[2]),
    ("other lo first, own beyond", |n| n[0] > n[3]),
    ("other lo first, own empty", |n| a_empty(n)),
    ("other lo first, meets", |_| true),
])];

pub const INTERIOR_INTERSECTS: &[Arms] = &[First(&[
    ("other beyond hi", |n| n[2] >= n[1]),
    ("other below lo", |n| n[0] >= n[3]),
    ("own has no interior", |n| n[0] >= n[1]),
    ("other empty", |n| b_empty(n)),
    ("meets", |_| true),
])];

pub const INTERSECTION: &[Arms] = &[
    First(&[("own lo", |n| n[0] > n[2]), ("other lo", |n| n[2] > n[0]), ("same lo", |_| true)]),
    First(&[("own hi", |n| n[1] < n[3]), ("other hi", |n| n[3] < n[1]), ("same hi", |_| true)]),
    First(&[("gives empty", |n| n[0].max(n[2]) > n[1].min(n[3])), ("gives some", |_| true)]),
];

pub const CLAMP_POINT: &[Arms] = &[
    First(&[("min takes hi", |n| n[1] < n[2]), ("min takes p", |n| n[2] < n[1]), ("min ties", |_| true)]),
    First(&[
        ("max takes lo", |n| n[0] > n[1].min(n[2])),
        ("max takes the rest", |n| n[1].min(n[2]) > n[0]),
        ("max ties", |_| true),
    ]),
    Each(&[("empty", |n| a_empty(n))]),
];

pub const EXPANDED: &[Arms] = &[
    First(&[
        ("empty", |n| a_empty(n)),
        ("lo rounded", |n| rounded(n[0], -n[2])),
        ("hi rounded", |n| rounded(n[1], n[2])),
        ("exact", |_| true),
    ]),
    Each(&[
        ("becomes empty", |n| !a_empty(n) && n[0] - n[2] > n[1] + n[2]),
        ("leaves reach", |n| !a_empty(n) && !(in_reach(n[0] - n[2]) && in_reach(n[1] + n[2]))),
    ]),
];

pub const UNION: &[Arms] = &[
    Each(&[("own empty", |n| a_empty(n)), ("other empty", |n| b_empty(n) && !a_empty(n))]),
    Of(
        &[
            First(&[("own lo", |n| n[0] < n[2]), ("other lo", |n| n[2] < n[0]), ("same lo", |_| true)]),
            First(&[("own hi", |n| n[1] > n[3]), ("other hi", |n| n[3] > n[1]), ("same hi", |_| true)]),
        ],
        |n| (!a_empty(n) && !b_empty(n)).then(|| n.to_vec()),
    ),
];

/// The error that is allowed comes last.
pub const APPROX_EQ_BY: &[Arms] = &[First(&[
    ("own empty, other short", |n| a_empty(n) && n[3] - n[2] < 2.0 * n[4]),
    ("own empty, other long", |n| a_empty(n)),
    ("other empty, own short", |n| b_empty(n) && n[1] - n[0] < 2.0 * n[4]),
    ("other empty, own long", |n| b_empty(n)),
    ("lo apart", |n| (n[0] - n[2]).abs() > n[4]),
    ("hi apart", |n| (n[1] - n[3]).abs() > n[4]),
    ("close", |_| true),
])];

pub const APPROX_EQ: &[Arms] = &[Of(APPROX_EQ_BY, |n| Some([n, &[EPSILON]].concat()))];

pub const HAUSDORFF: &[Arms] = &[
    First(&[
        ("own empty", |n| a_empty(n)),
        ("other empty", |n| b_empty(n)),
        ("held", |n| is_held(n)),
        ("by hi", |n| n[1] - n[3] > n[2] - n[0]),
        ("by lo", |n| n[2] - n[0] > n[1] - n[3]),
        ("both ways alike", |_| true),
    ]),
    Each(&[("rounded", |n| {
        !a_empty(n) && !b_empty(n) && !is_held(n) && (rounded(n[1], -n[3]) || rounded(n[2], -n[0]))
    })]),
];

/// Whether no end of the first lies beyond the second's.
fn is_held(n: &[f64]) -> bool {
    (n[1] - n[3]).max(n[2] - n[0]) <= 0.0
}

pub const ADD: &[Arms] = &[First(&[
    ("empty", |n| a_empty(n)),
    ("below lo", |n| n[2] < n[0]),
    ("above hi", |n| n[2] > n[1]),
    ("held", |_| true),
])];

pub const EQ: &[Arms] = &[First(&[
    ("same ends", |n| n[..2] == n[2..4]),
    ("both empty", |n| a_empty(n) && b_empty(n)),
    ("only own empty", |n| a_empty(n)),
    ("lo differs", |n| n[0] != n[2]),
    ("only hi differs", |_| true),
])];
