//! Inputs that every run of `oracle/boxes` has: the worked ones, each kind of fault at each line, and the
//! most lines with the most and the longest pieces.

use super::answer::MOST_LINES;
use super::worked;
use crate::kinds::bbox::bounds::{DEGREE, POLE, SEAM};
use crate::kinds::bbox::text;

pub fn all() -> Vec<Vec<u8>> {
    let worked = worked::all().into_iter().map(|(_, bytes, _)| bytes);
    worked.chain(fault_at_each_line()).chain([most_pieces(MOST_LINES), most_pieces(MOST_LINES + 1)]).collect()
}

/// Six lines with two pieces: at each line each kind of fault, with another fault on the next line, if any.
fn fault_at_each_line() -> Vec<Vec<u8>> {
    let good = [
        "[-1,0,1,1]", "[1,0,-1,1]", "[-180,-90,180,90]", " [-2, 0.5, 2, 1]\r", "[-3,0,3,0.75]", "[-4,0,4,9]",
    ];
    let faults =
        ["", "x", "[1,2,3,4", "[1,2,3,4]]", "[181,0,0,0]", "[0,1,0,0.9999999]", "[0,0,0,-90.0000001]"];
    let mut inputs = vec![good.join("\n").into_bytes()];
    for (at, fault) in (0..good.len()).flat_map(|at| (0..faults.len()).map(move |fault| (at, fault))) {
        let mut lines = good;
        lines[at] = faults[fault];
        if let Some(next) = lines.get_mut(at + 1) {
            *next = faults[(fault + 3) % faults.len()];
        }
        inputs.push((lines.join("\n") + "\n").into_bytes());
    }
    inputs
}

/// So many boxes that are all round but for a notch each, between -180 and -100: as many pieces, each with
/// as many digits as there can be.
fn most_pieces(count: usize) -> Vec<u8> {
    let step = (80 * DEGREE / count as i64) / 10 * 10;
    let notch = |at: usize| {
        let east = -SEAM + 1 + step * at as i64;
        [east + step / 20 * 10, -POLE + 1, east, -POLE + 2]
    };
    (0..count).map(|at| text::write(notch(at)) + "\n").collect::<String>().into_bytes()
}
