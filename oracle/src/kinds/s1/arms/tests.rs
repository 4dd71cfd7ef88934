//! The arms of the functions that say yes or no.

use std::f64::consts::PI;

use s2::consts::EPSILON;

use super::operands::{a, b, both, other, own, p, SEAM_READ};
use crate::base::roles::TWO_PI;
use crate::kind::arms::Arms::{self, Each, First, Of};
use crate::kinds::s1::arc::Arc;

pub const IS_VALID: &[Arms] =
    &[First(&[("FULL", |n| a(n).full()), ("EMPTY", |n| a(n).empty()), ("another", |_| true)])];

/// A valid interval has lo -PI in FULL alone, so hi is never the only end that differs.
pub const IS_FULL: &[Arms] = &[First(&[("lo differs", |n| n[0] != -PI), ("same", |_| true)])];

pub const IS_EMPTY: &[Arms] = &[Of(EQ, |n| Some(vec![n[0], n[1], PI, -PI]))];

/// The arms of a derived equality.
pub const EQ: &[Arms] =
    &[First(&[("lo differs", |n| n[0] != n[2]), ("only hi differs", |n| n[1] != n[3]), ("same", |_| true)])];

/// Of the point as it is.
const FAST: Arms = First(&[
    ("inverted, from lo on", |n| a(n).inverted() && !a(n).empty() && n[2] >= n[0]),
    ("inverted, up to hi", |n| a(n).inverted() && !a(n).empty() && n[2] <= n[1]),
    ("inverted, between", |n| a(n).inverted() && n[2] < n[0] && n[2] > n[1]),
    ("but empty", |n| a(n).inverted()),
    ("below lo", |n| n[2] < n[0]),
    ("above hi", |n| n[2] > n[1]),
    ("held", |_| true),
]);

pub const FAST_CONTAINS: &[Arms] = &[FAST, Each(&[("-PI, not read as PI", |n| n[2] == -PI)])];

pub const CONTAINS: &[Arms] = &[Of(&[FAST], |n| Some(vec![n[0], n[1], p(n)])), SEAM_READ];

pub const CONTAINS_INTERVAL: &[Arms] = &[First(&[
    ("both inverted, lo below", |n| both(n) && n[2] < n[0]),
    ("both inverted, hi above", |n| both(n) && n[3] > n[1]),
    ("both inverted, held", |n| both(n)),
    ("own inverted, by lo", |n| own(n) && !a(n).empty() && n[2] >= n[0]),
    ("own inverted, by hi", |n| own(n) && !a(n).empty() && n[3] <= n[1]),
    ("own inverted, neither", |n| own(n) && n[2] < n[0] && n[3] > n[1]),
    ("own empty", |n| own(n)),
    ("other inverted, own full", |n| other(n) && a(n).full()),
    ("other empty", |n| other(n) && b(n).empty()),
    ("other inverted, neither", |n| other(n)),
    ("lo below", |n| n[2] < n[0]),
    ("hi above", |n| n[3] > n[1]),
    ("held", |_| true),
])];

pub const INTERIOR_CONTAINS: &[Arms] = &[
    SEAM_READ,
    First(&[
        ("inverted, above lo", |n| a(n).inverted() && p(n) > n[0]),
        ("inverted, below hi", |n| a(n).inverted() && p(n) < n[1]),
        ("inverted, neither", |n| a(n).inverted()),
        ("not above lo", |n| !a(n).full() && p(n) <= n[0]),
        ("not below hi", |n| !a(n).full() && p(n) >= n[1]),
        ("held", |n| n[0] < p(n) && p(n) < n[1]),
        ("FULL alone holds it", |_| true),
    ]),
];

pub const INTERIOR_CONTAINS_INTERVAL: &[Arms] = &[First(&[
    ("both inverted, held", |n| both(n) && n[2] > n[0] && n[3] < n[1]),
    ("both inverted, other empty", |n| both(n) && b(n).empty()),
    ("both inverted, lo not above", |n| both(n) && n[2] <= n[0]),
    ("both inverted, hi not below", |n| both(n)),
    ("own inverted, lo above", |n| own(n) && n[2] > n[0]),
    ("own inverted, hi below", |n| own(n) && n[3] < n[1]),
    ("own inverted, neither", |n| own(n)),
    ("other inverted, own full", |n| other(n) && a(n).full()),
    ("other empty", |n| other(n) && b(n).empty()),
    ("other inverted, neither", |n| other(n)),
    ("held", |n| n[2] > n[0] && n[3] < n[1]),
    ("FULL alone holds it", |n| a(n).full()),
    ("lo not above", |n| n[2] <= n[0]),
    ("hi not below", |_| true),
])];

pub const INTERSECTS: &[Arms] = &[First(&[
    ("own empty", |n| a(n).empty()),
    ("other empty", |n| b(n).empty()),
    ("both inverted", |n| both(n)),
    ("own inverted, by lo", |n| own(n) && n[2] <= n[1]),
    ("own inverted, by hi", |n| own(n) && n[3] >= n[0]),
    ("own inverted, apart", |n| own(n)),
    ("other inverted, by lo", |n| other(n) && n[2] <= n[1]),
    ("other inverted, by hi", |n| other(n) && n[3] >= n[0]),
    ("other inverted, apart", |n| other(n)),
    ("other beyond hi", |n| n[2] > n[1]),
    ("other below lo", |n| n[3] < n[0]),
    ("meets", |_| true),
])];

pub const INTERIOR_INTERSECTS: &[Arms] = &[First(&[
    ("own empty", |n| a(n).empty()),
    ("other empty", |n| b(n).empty()),
    ("own a point", |n| n[0] == n[1]),
    ("both inverted", |n| both(n)),
    ("own inverted, by lo", |n| own(n) && n[2] < n[1]),
    ("own inverted, by hi", |n| own(n) && n[3] > n[0]),
    ("own inverted, apart", |n| own(n)),
    ("other inverted, by lo", |n| other(n) && n[2] < n[1]),
    ("other inverted, by hi", |n| other(n) && n[3] > n[0]),
    ("other inverted, apart", |n| other(n)),
    ("other beyond hi", |n| !a(n).full() && n[2] >= n[1]),
    ("other below lo", |n| !a(n).full() && n[3] <= n[0]),
    ("meets", |n| n[2] < n[1] && n[3] > n[0]),
    ("FULL alone meets", |_| true),
])];

/// The error that is allowed comes last.
pub const APPROX_EQ_BY: &[Arms] = &[
    First(&[
        ("own empty, other short", |n| a(n).empty() && b(n).len() < 2.0 * n[4]),
        ("own empty, other long", |n| a(n).empty()),
        ("other empty, own short", |n| b(n).empty() && a(n).len() < 2.0 * n[4]),
        ("other empty, own long", |n| b(n).empty()),
        ("own full, other long", |n| a(n).full() && b(n).len() >= 2.0 * (PI - n[4])),
        ("own full, other short", |n| a(n).full()),
        ("other full, own long", |n| b(n).full() && a(n).len() >= 2.0 * (PI - n[4])),
        ("other full, own short", |n| b(n).full()),
        ("lo apart", |n| ((n[2] - n[0]) % TWO_PI).abs() > n[4]),
        ("hi apart", |n| ((n[3] - n[1]) % TWO_PI).abs() > n[4]),
        ("lengths apart", |n| (a(n).len() - b(n).len()).abs() > 2.0 * n[4]),
        ("close", |_| true),
    ]),
    Each(&[("% takes a turn off", |n| {
        let special = |arc: Arc| arc.empty() || arc.full();
        let turn = (n[2] - n[0]).abs() >= TWO_PI || (n[3] - n[1]).abs() >= TWO_PI;
        turn && !special(a(n)) && !special(b(n))
    })]),
];

pub const APPROX_EQ: &[Arms] = &[Of(APPROX_EQ_BY, |n| Some([n, &[EPSILON]].concat()))];
