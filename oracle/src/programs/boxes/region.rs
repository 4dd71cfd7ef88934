//! The common region of boxes by brute force over whole numbers. The sides of all boxes cut the circle
//! into places: the sides themselves, and the open gaps between neighbouring ones, which a box holds whole
//! or not at all. Going east once round, each place is tried against every box; a piece is a run of common
//! places that nothing common stands beside.

use crate::kinds::bbox::bounds::{Bounds, POLE, SEAM};

/// A side as twice its number, and the gap east of it as one more.
type Place = i64;

/// The pieces in rising west: one that begins at the seam has west 180 and comes last.
pub fn pieces(boxes: &[Bounds]) -> Vec<Bounds> {
    let south = boxes.iter().map(|bounds| bounds[1]).max().unwrap_or(-POLE);
    let north = boxes.iter().map(|bounds| bounds[3]).min().unwrap_or(POLE);
    if south > north {
        return Vec::new();
    }
    let mut pieces: Vec<Bounds> =
        runs(boxes).into_iter().map(|[west, east]| [west, south, east, north]).collect();
    pieces.sort();
    pieces
}

/// West and east of each run of common places.
fn runs(boxes: &[Bounds]) -> Vec<[i64; 2]> {
    let places = places(boxes);
    let is_common = |place: &Place| boxes.iter().all(|bounds| holds(*bounds, *place));
    let Some(start) = places.iter().position(|place| !is_common(place)) else {
        return vec![[-SEAM, SEAM]];
    };
    // Once round from a place that is not common: so no run is met in two parts.
    let round: Vec<Place> = [&places[start..], &places[..start]].concat();
    let parts = round.split(|place| !is_common(place)).filter(|run| !run.is_empty());
    parts.map(|run| [side(run[0]), side(run[run.len() - 1])]).collect()
}

/// All places going east from just beyond the seam to the seam itself, which is at 180.
fn places(boxes: &[Bounds]) -> Vec<Place> {
    let mut sides: Vec<i64> = boxes.iter().flat_map(|bounds| [bounds[0], bounds[2]]).collect();
    sides.extend([-SEAM, SEAM]);
    sides.sort();
    sides.dedup();
    sides.windows(2).flat_map(|two| [2 * two[0] + 1, 2 * two[1]]).collect()
}

/// Whether a box holds a longitude place. -180 is the west of the whole circle alone.
fn holds([west, _, east, _]: Bounds, place: Place) -> bool {
    if west <= east {
        2 * west <= place && place <= 2 * east
    } else {
        2 * west <= place || place <= 2 * east
    }
}

/// The side that a place is. Boxes hold their sides, so no run begins or ends with a gap.
fn side(place: Place) -> i64 {
    assert!(place % 2 == 0, "a run begins or ends between two sides");
    place / 2
}
