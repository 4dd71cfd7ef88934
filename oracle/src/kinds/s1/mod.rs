//! `s1.`: the crate's `src/s1/interval.rs`, the circle interval, and the conversions to and from the line.

pub mod arc;
pub mod arms;
pub mod ops;
mod places;
mod worked;

use crate::kind::op::kinds;
use crate::kind::worked::written;
use crate::kind::Family;

pub const FAMILY: Family = Family {
    checks: places::CHECKS,
    stored_last: ALIKE,
    ..Family::new(|| kinds(ops::OPS), || written(worked::WORKED))
};

/// PI and 2^-53: the two ways round between them round to one distance, so the longer one is answered
/// where it goes east from the first (F16).
const ALIKE: &[&str] = &[
    "s1.union 400921FB54442D18 400921FB54442D18 3CA0000000000000 3CA0000000000000",
    "s1.union 3CA0000000000000 3CA0000000000000 400921FB54442D18 400921FB54442D18",
    "s1.add 400921FB54442D18 400921FB54442D18 3CA0000000000000",
    "s1.add 3CA0000000000000 3CA0000000000000 400921FB54442D18",
    "s1.from_point_pair 400921FB54442D18 3CA0000000000000",
    "s1.from_point_pair 3CA0000000000000 400921FB54442D18",
];
