//! `rect.`: the crate's `src/s2/rect.rs`, the rectangle of latitude and longitude.

mod arms;
mod differences;
pub mod ops;
mod places;
mod worked;

use crate::kind::op::kinds;
use crate::kind::worked::written;
use crate::kind::Family;

pub const FAMILY: Family =
    Family { checks: places::CHECKS, ..Family::new(|| kinds(ops::OPS), || written(worked::WORKED)) };
