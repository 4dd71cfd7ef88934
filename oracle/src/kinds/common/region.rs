//! The common region by brute force, from document 01's definition of places. All ends of all
//! longitudes cut the circle into elementary places: the ends themselves, and the stretches between
//! neighbouring ends. No interval has an end within a stretch, so it holds all of it or nothing. Each
//! elementary place is tried against every rectangle, and the pieces are the longest runs of common
//! ones. No interval is ever clipped by another.

use std::f64::consts::PI;

use crate::base::places::{above, at, holds, Place};
use crate::base::roles::{plain, Rect, FULL};

/// The pieces of the common region of valid rectangles, in rising lng.lo.
pub fn pieces(rects: &[Rect]) -> Vec<Rect> {
    // The full rectangle holds every place, so it changes nothing; with it an empty list has a band.
    let band = rects.iter().fold([FULL[0], FULL[1]], |[lo, hi], rect| {
        [if rect[0] > lo { rect[0] } else { lo }, if rect[1] < hi { rect[1] } else { hi }]
    });
    // A valid rectangle with an empty longitude has an empty latitude too.
    if band[0] > band[1] || rects.iter().any(|rect| rect[0] > rect[1]) {
        return Vec::new();
    }
    let piece = |[lo, hi]: [f64; 2]| [band[0], band[1], lo, hi].map(plain);
    arcs(rects).into_iter().map(piece).collect()
}

/// The longest runs of common longitude places, in rising lo.
fn arcs(rects: &[Rect]) -> Vec<[f64; 2]> {
    let ends = ends(rects);
    let common: Vec<bool> = elementary(&ends).iter().map(|place| held_by_all(rects, *place)).collect();
    if common.iter().all(|held| *held) {
        return vec![[-PI, PI]];
    }
    let count = common.len();
    let begins = |at: &usize| common[*at] && !common[(at + count - 1) % count];
    let length = |start: usize| (0..count).take_while(|step| common[(start + step) % count]).count();
    let runs = (0..count).filter(begins).map(|start| (start, (start + length(start) - 1) % count));
    let mut arcs: Vec<[f64; 2]> = runs.map(|(first, last)| [end(&ends, first), end(&ends, last)]).collect();
    arcs.sort_by(|a, b| a[0].total_cmp(&b[0]));
    arcs
}

/// All ends of the longitudes with -PI and PI, rising, each once.
fn ends(rects: &[Rect]) -> Vec<f64> {
    let mut ends = vec![-PI, PI];
    ends.extend(rects.iter().flat_map(|rect| [plain(rect[2]), plain(rect[3])]));
    ends.sort_by(f64::total_cmp);
    ends.dedup();
    ends
}

/// A place for each elementary place, going east from the seam: by turns the gap above an end, which
/// stands for the stretch up to the next end, and that next end.
fn elementary(ends: &[f64]) -> Vec<Place> {
    ends.windows(2).flat_map(|pair| [above(pair[0]), at(pair[1])]).collect()
}

/// The end that is the elementary place of this number. Intervals are closed, so no run of common
/// places begins or ends with a stretch.
fn end(ends: &[f64], number: usize) -> f64 {
    assert!(number % 2 == 1, "a run begins or ends between two ends");
    ends[number.div_ceil(2)]
}

fn held_by_all(rects: &[Rect], place: Place) -> bool {
    rects.iter().all(|rect| holds([rect[2], rect[3]], place))
}
