//! The common region as a user would write it in Rust: zones that do not cross the 180th meridian are met by
//! their ends; of those that do, what each leaves out is sorted and swept. It refuses what the library
//! refuses, so that the answers can be compared.

use std::f64::consts::{FRAC_PI_2, PI};

use crate::records::Pieces;

/// 2 to the power 500.
const REACH: f64 = 3.273390607896142e150;

fn refusal(r: &[f64]) -> u8 {
    let (south, north, west, east) = (r[0], r[1], r[2], r[3]);
    if !r.iter().all(|x| x.abs() <= REACH) {
        return 1;
    }
    let lat = south.abs() <= FRAC_PI_2 && north <= FRAC_PI_2;
    let lng =
        west.abs() <= PI && east.abs() <= PI && (west != -PI || east == PI) && (east != -PI || west == PI);
    let empty = west == PI && east == -PI;
    if lat && lng && (south > north) == empty {
        0
    } else if !lat {
        21
    } else if !lng {
        22
    } else {
        23
    }
}

pub fn common_region(list: &[f64], out: &mut [f64]) -> Pieces {
    let refused = |refusal| Pieces { refusal, count: 0, entry: 0 };
    if list.len() % 4 != 0 || list.len() > 2048 {
        return refused(5);
    }
    let (mut south, mut north) = (-FRAC_PI_2, FRAC_PI_2);
    let (mut west, mut east) = (-PI, PI);
    let mut gaps: Vec<(f64, f64)> = Vec::with_capacity(list.len() / 4);
    for r in list.chunks_exact(4) {
        let why = refusal(r);
        if why != 0 {
            // which one it is is looked for only now, so that good zones need no counting
            let entry = list.chunks_exact(4).position(|r| refusal(r) != 0).unwrap_or(0);
            return Pieces { entry, ..refused(why) };
        }
        south = south.max(r[0]);
        north = north.min(r[1]);
        if r[2] > r[3] {
            gaps.push((r[3], r[2]));
        } else {
            west = west.max(r[2]);
            east = east.min(r[3]);
        }
    }
    if south > north {
        return refused(0);
    }
    gaps.sort_unstable_by(|a, b| a.0.total_cmp(&b.0));
    let round = west == -PI && !gaps.is_empty();
    let mut pieces: Vec<(f64, f64)> = Vec::new();
    for &(from, to) in &gaps {
        if from >= east {
            break;
        }
        if west <= from {
            pieces.push((west, from));
        }
        west = west.max(to);
    }
    if west <= east {
        pieces.push((west, east));
    }
    // the first piece and the last are one that leads over the 180th meridian
    if round && !pieces.is_empty() {
        let (_, end) = pieces.remove(0);
        if let Some(last) = pieces.last_mut() {
            last.1 = end;
        }
    }
    if out.len() < 4 * pieces.len() {
        return refused(6);
    }
    for (to, &(west, east)) in out.chunks_exact_mut(4).zip(&pieces) {
        to.copy_from_slice(&[south + 0.0, north + 0.0, west + 0.0, east + 0.0]);
    }
    Pieces { count: pieces.len(), ..refused(0) }
}
