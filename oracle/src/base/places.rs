//! Document 01's places: written from its section "Places" alone. The reference of the common region is made of
//! them, and `oracle/check` holds the crate's functions to statements over them.

use std::f64::consts::{FRAC_PI_2, PI};

use super::roles::{seam_as_pi, Arc, Rect};

/// A place as a whole number, rising from west to east: twice the rank of a double for the double
/// itself, and one more for the gap just above it.
pub type Place = i128;

/// The rank of a double among all doubles; both zeros have the same.
fn rank(x: f64) -> i128 {
    let size = i128::from(x.abs().to_bits());
    if x < 0.0 {
        -size
    } else {
        size
    }
}

pub fn at(x: f64) -> Place {
    2 * rank(x)
}

/// The gap just above a double.
pub fn above(x: f64) -> Place {
    at(x) + 1
}

/// The place of a point of the circle: -PI is the place PI.
pub fn place_of(p: f64) -> Place {
    at(seam_as_pi(p))
}

/// The first place, the gap just above -PI, and the last, PI.
pub fn first() -> Place {
    above(-PI)
}

pub fn last() -> Place {
    at(PI)
}

pub fn is_full([lo, hi]: Arc) -> bool {
    lo == -PI && hi == PI
}

/// The places met going east from lo to hi, ends included; FULL holds all, EMPTY none.
pub fn holds([lo, hi]: Arc, place: Place) -> bool {
    if lo <= hi {
        at(lo) <= place && place <= at(hi)
    } else {
        (at(lo) <= place || place <= at(hi)) && !(lo == PI && hi == -PI)
    }
}

/// The places strictly between the ends; FULL holds all, a single point and EMPTY none.
pub fn holds_inside([lo, hi]: Arc, place: Place) -> bool {
    if lo <= hi {
        (at(lo) < place && place < at(hi)) || is_full([lo, hi])
    } else {
        at(lo) < place || place < at(hi)
    }
}

/// Places enough to tell sets apart that change only at these numbers: each one, and the gaps beside.
pub fn telling(numbers: &[f64]) -> Vec<Place> {
    let mut places = vec![first(), last()];
    for x in numbers {
        places.extend([at(*x) - 1, at(*x), at(*x) + 1]);
    }
    places.retain(|place| (first()..=last()).contains(place));
    places
}

/// A place of the globe: a latitude double in [-PI/2, PI/2] and a longitude place. At a pole each longitude is
/// a place by itself.
pub type At = (f64, Place);

pub fn held([lat_lo, lat_hi, lng_lo, lng_hi]: Rect, (lat, lng): At) -> bool {
    lat_lo <= lat && lat <= lat_hi && holds([lng_lo, lng_hi], lng)
}

/// Places enough to tell these rectangles apart.
pub fn telling_places(rects: &[Rect]) -> Vec<At> {
    let ends = rects.iter().flat_map(|rect| [rect[0], rect[1]]);
    let mut lats: Vec<f64> = ends.flat_map(|x| [x.next_down(), x, x.next_up()]).collect();
    lats.extend([-FRAC_PI_2, FRAC_PI_2]);
    lats.retain(|lat| lat.abs() <= FRAC_PI_2);
    lats.sort_by(f64::total_cmp);
    lats.dedup();
    let mut lngs = telling(&rects.iter().flat_map(|rect| [rect[2], rect[3]]).collect::<Vec<_>>());
    lngs.sort();
    lngs.dedup();
    lats.iter().flat_map(|lat| lngs.iter().map(move |lng| (*lat, *lng))).collect()
}
