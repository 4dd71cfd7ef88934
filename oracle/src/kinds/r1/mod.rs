//! `r1.`: the crate's `src/r1/interval.rs`, the line interval.

pub mod arms;
mod laws;
pub mod ops;
mod worked;

use crate::kind::op::kinds;
use crate::kind::worked::written;
use crate::kind::Family;

pub const FAMILY: Family =
    Family { checks: laws::CHECKS, ..Family::new(|| kinds(ops::OPS), || written(worked::WORKED)) };
