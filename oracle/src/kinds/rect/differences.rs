//! The named differences: accepted questions that the port answers otherwise than the crate, because
//! document 01 says so ("What the trade gets wrong here"). Each one is a function here, with the
//! sentence that asks for it. It gives an answer exactly where its condition is met.

use std::f64::consts::{FRAC_PI_2, PI};

use s2::s2::latlng::LatLng;
use s2::s2::rect::Rect;

use crate::kind::op::corners;

/// "Copying `From<LatLng>` at longitude -PI: the crate stores [-PI, -PI], which its own rules call
/// invalid. The port stores [PI, PI]".
pub fn latlng_at_the_seam(n: &[f64]) -> Option<Vec<f64>> {
    (n[1] == -PI).then(|| vec![n[0], n[0], PI, PI])
}

/// "`from_center_size` starts there too, so its last bits may differ." So a centre at longitude -PI is
/// one at PI; the rest is the crate's own work.
pub fn center_at_the_seam(n: &[f64]) -> Option<Vec<f64>> {
    let from_the_seam = || {
        let (center, size) = (LatLng::from_radians(n[0], PI), LatLng::from_radians(n[2], n[3]));
        corners(Rect::from_center_size(center, size)).to_vec()
    };
    (n[1] == -PI).then(from_the_seam)
}

/// "Letting `polar_closure` of an empty rectangle with lat.lo at -PI/2 turn its longitude FULL, as the
/// crate does: that record is not valid. The port hands the rectangle back as it came". An accepted
/// answer has no negative zero, so zeros are read there too.
pub fn closure_of_an_empty_one(rect: &[f64]) -> Option<Vec<f64>> {
    let empty = rect[0] > rect[1];
    (empty && rect[0] == -FRAC_PI_2).then(|| rect.to_vec())
}
