//! Laws of the line interval's arithmetic that come to mind over real numbers. They hold for the crate
//! wherever they were tried; none of them is proved of the port.

use super::ops::OPS;
use crate::base::check::{drawn, Check, Statements};
use crate::base::roles::Role::{Amount, Line};
use crate::draw;
use crate::kind::op::numbers;

pub const CHECKS: &[Check] = &[("line intervals by laws that are not proved", || {
    drawn("laws of the line", 500_000, |rng, tried| {
        let n = draw::numbers(rng, &[Line, Amount], true);
        tried.hold_all(statements([n[0], n[1]], n[2]), &n);
    })
})];

fn statements([lo, hi]: [f64; 2], margin: f64) -> Statements {
    let empty = lo > hi;
    let [len] = numbers(OPS, "r1.len", &[lo, hi]);
    let [center] = numbers(OPS, "r1.center", &[lo, hi]);
    let [west, east] = numbers(OPS, "r1.expanded", &[lo, hi, margin]);
    vec![
        ("len is negative exactly when the interval is empty", (len < 0.0) == empty),
        ("center of one that is not empty lies in it", empty || (lo <= center && center <= hi)),
        ("expanded by 0 or more holds it", empty || margin < 0.0 || (west <= lo && hi <= east)),
    ]
}
