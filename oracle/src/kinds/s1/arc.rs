//! A circle interval with the crate's tests on it written out once more, for its arms.

use std::f64::consts::PI;

use s2::consts::DBL_EPSILON;

use crate::base::roles::TWO_PI;

#[derive(Clone, Copy)]
pub struct Arc {
    pub lo: f64,
    pub hi: f64,
}

impl Arc {
    pub fn empty(self) -> bool {
        self.lo == PI && self.hi == -PI
    }

    pub fn full(self) -> bool {
        self.lo == -PI && self.hi == PI
    }

    pub fn inverted(self) -> bool {
        self.lo > self.hi
    }

    pub fn len(self) -> f64 {
        let length = self.hi - self.lo;
        if length >= 0.0 {
            length
        } else if length + TWO_PI > 0.0 {
            length + TWO_PI
        } else {
            -1.0
        }
    }

    /// The crate's `fast_contains`.
    pub fn holds(self, p: f64) -> bool {
        if self.inverted() {
            (p >= self.lo || p <= self.hi) && !self.empty()
        } else {
            p >= self.lo && p <= self.hi
        }
    }

    /// The crate's `contains_interval`.
    pub fn holds_all(self, other: Arc) -> bool {
        if self.inverted() != other.inverted() {
            return if self.inverted() {
                (other.lo >= self.lo || other.hi <= self.hi) && !self.empty()
            } else {
                self.full() || other.empty()
            };
        }
        other.lo >= self.lo && other.hi <= self.hi
    }

    pub fn center(self) -> f64 {
        let middle = 0.5 * (self.lo + self.hi);
        if self.inverted() {
            turned(middle)
        } else {
            middle
        }
    }

    pub fn complement_center(self) -> f64 {
        if self.lo != self.hi {
            Arc { lo: self.hi, hi: self.lo }.center()
        } else {
            turned(self.hi)
        }
    }

    /// The crate's `new`.
    pub fn normalised(lo: f64, hi: f64) -> Arc {
        let seam = |x: f64, other: f64| if x == -PI && other != PI { PI } else { x };
        Arc { lo: seam(lo, hi), hi: seam(hi, lo) }
    }

    /// Whether `intersection` gives EMPTY.
    pub fn apart(self, other: Arc) -> bool {
        other.empty() || !(self.holds(other.lo) || self.holds(other.hi) || other.holds(self.lo))
    }

    /// The length with a margin on both sides.
    pub fn moved(self, margin: f64) -> f64 {
        self.len() + 2.0 * margin
    }

    /// Whether `expanded` gives EMPTY.
    pub fn expands_to_empty(self, margin: f64) -> bool {
        if margin >= 0.0 {
            self.empty()
        } else {
            !self.full() && self.moved(margin) - 2.0 * DBL_EPSILON <= 0.0
        }
    }

    /// Whether `expanded` gives FULL.
    pub fn expands_to_full(self, margin: f64) -> bool {
        if margin >= 0.0 {
            !self.empty() && self.moved(margin) + 2.0 * DBL_EPSILON >= TWO_PI
        } else {
            self.full()
        }
    }
}

/// How far the opposite point is: half a turn, one way or the other.
pub fn half_turn(x: f64) -> f64 {
    if x <= 0.0 {
        PI
    } else {
        -PI
    }
}

fn turned(x: f64) -> f64 {
    x + half_turn(x)
}

/// The crate's `positive_distance`: from a east to b.
pub fn east(a: f64, b: f64) -> f64 {
    if b - a >= 0.0 {
        b - a
    } else {
        (b + PI) - (a - PI)
    }
}
