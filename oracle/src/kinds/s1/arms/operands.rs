//! The operands of a question, as its arms see them.

use std::f64::consts::PI;

use crate::base::roles::seam_as_pi;
use crate::kind::arms::Arms::{self, Each};
use crate::kinds::s1::arc::Arc;

/// The interval that comes first in the question, the one that comes second, and the point after the first.
pub fn a(n: &[f64]) -> Arc {
    Arc { lo: n[0], hi: n[1] }
}

pub fn b(n: &[f64]) -> Arc {
    Arc { lo: n[2], hi: n[3] }
}

pub fn p(n: &[f64]) -> f64 {
    seam_as_pi(n[2])
}

/// Which of the two are inverted: both, only the first, only the second.
pub fn both(n: &[f64]) -> bool {
    a(n).inverted() && b(n).inverted()
}

pub fn own(n: &[f64]) -> bool {
    a(n).inverted() && !b(n).inverted()
}

pub fn other(n: &[f64]) -> bool {
    !a(n).inverted() && b(n).inverted()
}

pub const SEAM_READ: Arms = Each(&[("-PI read as PI", |n| n[2] == -PI)]);
