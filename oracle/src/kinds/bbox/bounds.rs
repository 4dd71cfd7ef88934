//! A box of whole numbers: its limits, the seam, and its radians.

use s2::s2::rect::Rect as CrateRect;

use crate::base::roles::Rect;
use crate::kind::op::corners;

/// A box: west, south, east, north in ten-millionths of a degree.
pub type Bounds = [i64; 4];

/// The sides in the order of a box, for the eye.
pub const SIDES: [&str; 4] = ["west", "south", "east", "north"];

pub const DEGREE: i64 = 10_000_000;

/// The longitude of the seam, and the latitude of the north pole.
pub const SEAM: i64 = 180 * DEGREE;
pub const POLE: i64 = 90 * DEGREE;

/// The largest size of each number of a box.
pub const LIMITS: Bounds = [SEAM, POLE, SEAM, POLE];

/// "within 180 and 90 with south not above north".
pub fn in_limits(bounds: Bounds) -> bool {
    let [_, south, _, north] = bounds;
    (0..4).all(|side| in_limit(side, bounds[side])) && south <= north
}

/// Whether a number is one that this side of a box may have.
pub fn in_limit(side: usize, number: i64) -> bool {
    (-LIMITS[side]..=LIMITS[side]).contains(&number)
}

/// "Only -180 with 180 is the whole circle; every other -180 is read as 180."
pub fn seam_read(bounds: Bounds) -> Bounds {
    let [west, south, east, north] = bounds;
    let seam = |longitude: i64| if longitude == -SEAM { SEAM } else { longitude };
    if (west, east) == (-SEAM, SEAM) {
        bounds
    } else {
        [seam(west), south, seam(east), north]
    }
}

/// Whether reading can give this box: what it says is what it would be read as.
pub fn can_be_read(bounds: Bounds) -> bool {
    in_limits(bounds) && seam_read(bounds) == bounds
}

/// "The degree double is the whole number over 10^7, rounded once": both are doubles, and the division
/// rounds.
pub fn degrees(number: i64) -> f64 {
    number as f64 / DEGREE as f64
}

/// A box that reading can give, in radians: the crate's own work. lat.lo, lat.hi, lng.lo, lng.hi.
pub fn rect_of(bounds: Bounds) -> Rect {
    let [west, south, east, north] = bounds.map(degrees);
    corners(CrateRect::from_degrees(south, west, north, east))
}
