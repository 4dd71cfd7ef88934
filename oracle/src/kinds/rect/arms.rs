//! The arms of the functions in the crate's `src/s2/rect.rs`, told from their own conditions.
//!
//! Most of these functions call one function of the line on the latitudes and one of the circle on the
//! longitudes. The arms of both are wanted, those of the longitude only where it is called at all: `&&`
//! ends at a latitude that says no. Nothing here calls a function of the crate.

use std::f64::consts::{FRAC_PI_2, PI};

use s2::consts::DBL_EPSILON;

use crate::base::roles::{seam_as_pi, TWO_PI};
use crate::kind::arms::Arms::{self, Each, First, Of};
use crate::kind::arms::{reached, Part};
use crate::kind::op::Inner;
use crate::kinds::r1::arms::{self as line, rounded};
use crate::kinds::s1::arc::Arc;
use crate::kinds::s1::arms as circle;

const fn lat(arms: &'static [Arms], called_with: Part) -> Inner {
    Inner { part: "lat", arms, called_with, never: &[] }
}

const fn lng(arms: &'static [Arms], called_with: Part) -> Inner {
    Inner { part: "lng", arms, called_with, never: &[] }
}

/// The same, where no valid rectangle reaches some arms.
const fn but(never: &'static [&'static str], inner: Inner) -> Inner {
    Inner { never, ..inner }
}

/// The numbers at these places, which an inner function is always called with.
fn at(n: &[f64], places: &[usize]) -> Option<Vec<f64>> {
    Some(places.iter().map(|place| n[*place]).collect())
}

/// The latitudes and the longitudes of a rectangle, of two, and of one with a point or margins.
const LAT: Part = |n| at(n, &[0, 1]);
const LNG: Part = |n| at(n, &[2, 3]);
const LATS: Part = |n| at(n, &[0, 1, 4, 5]);
const LNGS: Part = |n| at(n, &[2, 3, 6, 7]);
const LAT_AND_ONE: Part = |n| at(n, &[0, 1, 4]);
const LNG_AND_ONE: Part = |n| at(n, &[2, 3, 5]);

/// The longitudes, if the test of the latitudes says yes: one of its arms with that outcome is reached.
fn if_yes(n: &[f64], arms: &[Arms], lats: Part, yes: &[&str], lngs: Part) -> Option<Vec<f64>> {
    let says_yes = reached(arms, &lats(n)?).iter().any(|name| yes.contains(name));
    if says_yes {
        lngs(n)
    } else {
        None
    }
}

fn is_empty(n: &[f64]) -> bool {
    n[0] > n[1]
}

/// Of a latitude that is made: where the poles clamp it.
const CLAMPED: Arms = Each(&[
    ("clamped at the south pole", |n| n[0] < -FRAC_PI_2),
    ("clamped at the north pole", |n| n[1] > FRAC_PI_2),
    ("not clamped", |n| n[0] >= -FRAC_PI_2 && n[1] <= FRAC_PI_2),
]);

/// The named difference has arms of its own: the centre at longitude -PI.
pub const FROM_CENTER_SIZE: &[Arms] = &[
    Each(&[("centre at longitude -PI", |n| n[1] == -PI)]),
    First(&[("lat shrinks", |n| 0.5 * n[2] < 0.0), ("only lng shrinks", |n| 0.5 * n[3] < 0.0)]),
    Each(&[("a size halves to zero", |n| n[2..].iter().any(|size| *size != 0.0 && 0.5 * size == 0.0))]),
    Of(&[CLAMPED], |n| grows(n).map(|[lat, _, half, _]| vec![lat - half, lat + half])),
    Of(AROUND_A_CENTRE, |n| grows(n).map(|parts| parts.to_vec())),
];

/// Latitude and longitude of the centre, and half the sizes, if neither part shrinks.
fn grows(n: &[f64]) -> Option<[f64; 4]> {
    let parts = [n[0], seam_as_pi(n[1]), 0.5 * n[2], 0.5 * n[3]];
    (parts[2] >= 0.0 && parts[3] >= 0.0).then_some(parts)
}

const AROUND_A_CENTRE: &[Arms] = &[
    First(&[
        ("lng FULL", |n| becomes_full(n)),
        ("lng turns", |n| n[1] - n[3] < -PI || n[1] + n[3] > PI),
        ("lng stays", |_| true),
    ]),
    Each(&[
        ("lat rounded", |n| rounded(n[0], n[2]) || rounded(n[0], -n[2])),
        ("lng rounded", |n| !becomes_full(n) && (rounded(n[1], n[3]) || rounded(n[1], -n[3]))),
    ]),
];

fn becomes_full(n: &[f64]) -> bool {
    2.0 * n[3] + 2.0 * DBL_EPSILON >= TWO_PI
}

pub const FROM_POINT_PAIR: &[Inner] =
    &[lat(line::FROM_POINT_PAIR, |n| at(n, &[0, 2])), lng(circle::FROM_POINT_PAIR, |n| at(n, &[1, 3]))];

pub const FROM_LATLNG: &[Arms] =
    &[First(&[("longitude -PI", |n| n[1] == -PI), ("another longitude", |_| true)])];

pub const IS_VALID: &[Arms] = IS_EMPTY;

pub const IS_EMPTY: &[Arms] = &[First(&[
    ("the standard empty one", |n| n[0] == 1.0 && n[1] == 0.0),
    ("another empty one", |n| is_empty(n)),
    ("not empty", |_| true),
])];

pub const IS_FULL: &[Arms] = &[First(&[
    ("lat differs", |n| n[0] != -FRAC_PI_2 || n[1] != FRAC_PI_2),
    ("only lng differs", |n| n[2] != -PI || n[3] != PI),
    ("full", |_| true),
])];

pub const IS_POINT: &[Arms] = &[First(&[
    ("lat differs", |n| n[0] != n[1]),
    ("only lng differs", |n| n[2] != n[3]),
    ("a point", |_| true),
])];

pub const IS_INVERTED: &[Arms] =
    &[First(&[("empty", |n| is_empty(n)), ("crosses the seam", |n| n[2] > n[3]), ("does not", |_| true)])];

pub const VERTEX: &[Arms] = &[Each(&[
    ("lower left", |n| n[4] % 4.0 == 0.0),
    ("lower right", |n| n[4] % 4.0 == 1.0),
    ("upper right", |n| n[4] % 4.0 == 2.0),
    ("upper left", |n| n[4] % 4.0 == 3.0),
    ("number above 3", |n| n[4] > 3.0),
])];

pub const CENTER: &[Inner] = &[lat(line::CENTER, LAT), lng(circle::CENTER, LNG)];

pub const SIZE: &[Inner] = &[lat(line::LEN, LAT), lng(circle::LEN, LNG)];

/// A latitude is too small to carry a margin out of reach.
pub const EXPANDED: &[Inner] =
    &[but(&["leaves reach"], lat(line::EXPANDED, LAT_AND_ONE)), lng(circle::EXPANDED, LNG_AND_ONE)];

pub const EXPANDED_ITSELF: &[Arms] = &[
    First(&[
        ("lat empty", |n| is_empty(n) || n[0] - n[4] > n[1] + n[4]),
        ("only lng empty", |n| lng_arc(n).expands_to_empty(n[5])),
    ]),
    Of(&[CLAMPED], |n| {
        let lat = [n[0] - n[4], n[1] + n[4]];
        let empty = is_empty(n) || is_empty(&lat) || lng_arc(n).expands_to_empty(n[5]);
        (!empty).then(|| lat.to_vec())
    }),
    Each(&[("longitudes shrink, latitudes grow", |n| n[5] < 0.0 && n[4] > 0.0)]),
];

/// The longitude of the first rectangle.
fn lng_arc(n: &[f64]) -> Arc {
    Arc { lo: n[2], hi: n[3] }
}

/// The named difference has an arm of its own: an empty rectangle with lat.lo at -PI/2.
pub const POLAR_CLOSURE: &[Arms] = &[
    First(&[
        ("empty, lat.lo at -PI/2", |n| is_empty(n) && n[0] == -FRAC_PI_2),
        ("empty, lat.lo elsewhere", |n| is_empty(n)),
        ("the south pole", |n| n[0] == -FRAC_PI_2),
        ("only the north pole", |n| n[1] == FRAC_PI_2),
        ("neither", |_| true),
    ]),
    Each(&[("FULL before", |n| n[2] == -PI)]),
];

pub const UNION: &[Inner] = &[lat(line::UNION, LATS), lng(circle::UNION, LNGS)];

pub const INTERSECTION: &[Inner] = &[lat(line::INTERSECTION, LATS), lng(circle::INTERSECTION, LNGS)];

pub const INTERSECTION_ITSELF: &[Arms] = &[First(&[
    ("lat empty", |n| n[0].max(n[4]) > n[1].min(n[5])),
    ("only lng empty", |n| lng_arc(n).apart(lng_arc(&n[4..]))),
    ("some", |_| true),
])];

/// Latitudes that meet are not empty, so neither are the longitudes.
pub const INTERSECTS: &[Inner] = &[
    lat(line::INTERSECTS, LATS),
    but(
        &["own empty", "other empty"],
        lng(circle::INTERSECTS, |n| {
            if_yes(n, line::INTERSECTS, LATS, &["own lo first, meets", "other lo first, meets"], LNGS)
        }),
    ),
];

pub const INTERIOR_INTERSECTS: &[Inner] = &[
    lat(line::INTERIOR_INTERSECTS, LATS),
    but(
        &["own empty", "other empty"],
        lng(circle::INTERIOR_INTERSECTS, |n| if_yes(n, line::INTERIOR_INTERSECTS, LATS, &["meets"], LNGS)),
    ),
];

/// The arms of the line's tests of holding an interval that say yes.
const HELD: &[&str] = &["other empty", "held"];

/// An empty rectangle whose latitude holds the other's is asked about an empty longitude alone.
pub const CONTAINS: &[Inner] = &[
    lat(line::CONTAINS_INTERVAL, LATS),
    but(
        &["own empty"],
        lng(circle::CONTAINS_INTERVAL, |n| if_yes(n, line::CONTAINS_INTERVAL, LATS, HELD, LNGS)),
    ),
];

pub const INTERIOR_CONTAINS: &[Inner] = &[
    lat(line::INTERIOR_CONTAINS_INTERVAL, LATS),
    lng(circle::INTERIOR_CONTAINS_INTERVAL, |n| {
        if_yes(n, line::INTERIOR_CONTAINS_INTERVAL, LATS, HELD, LNGS)
    }),
];

/// A latitude that holds a point is not empty, so neither is the longitude.
pub const CONTAINS_LATLNG: &[Inner] = &[
    lat(line::CONTAINS, LAT_AND_ONE),
    but(
        &["but empty"],
        lng(circle::CONTAINS, |n| if_yes(n, line::CONTAINS, LAT_AND_ONE, &["held"], LNG_AND_ONE)),
    ),
];

pub const INTERIOR_CONTAINS_LATLNG: &[Inner] = &[
    lat(line::INTERIOR_CONTAINS, LAT_AND_ONE),
    lng(circle::INTERIOR_CONTAINS, |n| {
        if_yes(n, line::INTERIOR_CONTAINS, LAT_AND_ONE, &["held"], LNG_AND_ONE)
    }),
];

pub const ADD: &[Inner] = &[lat(line::ADD, LAT_AND_ONE), lng(circle::ADD, LNG_AND_ONE)];

pub const EQ: &[Inner] = &[
    lat(line::EQ, LATS),
    lng(circle::EQ, |n| if_yes(n, line::EQ, LATS, &["same ends", "both empty"], LNGS)),
];

/// The arms of the approximate tests of the line that say yes.
const CLOSE: &[&str] = &["own empty, other short", "other empty, own short", "close"];

pub const APPROX_EQ: &[Inner] =
    &[lat(line::APPROX_EQ, LATS), lng(circle::APPROX_EQ, |n| if_yes(n, line::APPROX_EQ, LATS, CLOSE, LNGS))];

const LATS_AND_ERROR: Part = |n| at(n, &[0, 1, 4, 5, 8]);
const LNGS_AND_ERROR: Part = |n| at(n, &[2, 3, 6, 7, 9]);

pub const APPROX_EQ_BY: &[Inner] = &[
    lat(line::APPROX_EQ_BY, LATS_AND_ERROR),
    lng(circle::APPROX_EQ_BY, |n| if_yes(n, line::APPROX_EQ_BY, LATS_AND_ERROR, CLOSE, LNGS_AND_ERROR)),
];
