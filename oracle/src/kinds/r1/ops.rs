//! The table of operations: calls of the crate.

use s2::r1::interval::{Interval, EMPTY};

use super::arms;
use crate::base::roles::Role::{Amount, Line, LinePoint};
use crate::kind::op::{op, Gives, Op};

pub const OPS: &[Op] = &[
    op("r1.empty", &[], Gives::Line(|_| EMPTY)),
    op("r1.new", &[Line], Gives::Line(|n| Interval::new(n[0], n[1]))),
    op("r1.from_point", &[LinePoint], Gives::Line(|n| Interval::from_point(n[0]))),
    op("r1.from_point_pair", &[LinePoint, LinePoint], Gives::Line(|n| Interval::from_point_pair(n[0], n[1])))
        .arms(arms::FROM_POINT_PAIR),
    op("r1.is_empty", &[Line], Gives::Test(|n| a(n).is_empty())),
    op("r1.center", &[Line], Gives::Number(|n| a(n).center())).arms(arms::CENTER),
    op("r1.len", &[Line], Gives::Number(|n| a(n).len())).arms(arms::LEN),
    op("r1.contains", &[Line, LinePoint], Gives::Test(|n| a(n).contains(n[2]))).arms(arms::CONTAINS),
    op("r1.contains_interval", &[Line, Line], Gives::Test(|n| a(n).contains_interval(&b(n))))
        .arms(arms::CONTAINS_INTERVAL),
    op("r1.interior_contains", &[Line, LinePoint], Gives::Test(|n| a(n).interior_contains(n[2])))
        .arms(arms::INTERIOR_CONTAINS),
    op(
        "r1.interior_contains_interval",
        &[Line, Line],
        Gives::Test(|n| a(n).interior_contains_interval(&b(n))),
    )
    .arms(arms::INTERIOR_CONTAINS_INTERVAL),
    op("r1.intersects", &[Line, Line], Gives::Test(|n| a(n).intersects(&b(n)))).arms(arms::INTERSECTS),
    op("r1.interior_intersects", &[Line, Line], Gives::Test(|n| a(n).interior_intersects(&b(n))))
        .arms(arms::INTERIOR_INTERSECTS),
    op("r1.intersection", &[Line, Line], Gives::Line(|n| a(n).intersection(&b(n)))).arms(arms::INTERSECTION),
    op("r1.clamp_point", &[Line, LinePoint], Gives::Number(|n| a(n).clamp_point(n[2])))
        .arms(arms::CLAMP_POINT),
    op("r1.expanded", &[Line, Amount], Gives::Line(|n| a(n).expanded(n[2]))).arms(arms::EXPANDED),
    op("r1.union", &[Line, Line], Gives::Line(|n| a(n).union(&b(n)))).arms(arms::UNION),
    op("r1.approx_eq", &[Line, Line], Gives::Test(|n| a(n).approx_eq(&b(n)))).arms(arms::APPROX_EQ),
    op("r1.approx_eq_by", &[Line, Line, Amount], Gives::Test(|n| a(n).approx_eq_by(&b(n), n[4])))
        .arms(arms::APPROX_EQ_BY),
    op("r1.hausdorff", &[Line, Line], Gives::Distance(|n| a(n).directed_hausdorff_distance(&b(n))))
        .arms(arms::HAUSDORFF),
    op("r1.add", &[Line, LinePoint], Gives::Line(|n| a(n) + n[2])).arms(arms::ADD).growing(),
    op("r1.eq", &[Line, Line], Gives::Test(|n| a(n) == b(n))).arms(arms::EQ),
];

/// The interval whose numbers come first in the question.
fn a(n: &[f64]) -> Interval {
    Interval { lo: n[0], hi: n[1] }
}

/// The interval whose numbers come second.
fn b(n: &[f64]) -> Interval {
    Interval { lo: n[2], hi: n[3] }
}
