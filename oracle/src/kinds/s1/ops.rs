//! The table of operations: calls of the crate.

use s2::circle_opened::opened_positive_distance;
use s2::r1::interval::Interval as LineInterval;
use s2::s1::interval::{Interval, EMPTY, FULL};

use super::arms;
use crate::base::roles::Role::{Amount, Circle, CircleEnds, CirclePoint};
use crate::kind::op::{op, Gives, Op};

pub const OPS: &[Op] = &[
    // The line interval is refused as the circle interval would be that it is to become.
    op("r1.to_s1", &[Circle], Gives::Circle(|n| LineInterval { lo: n[0], hi: n[1] }.into())),
    op("s1.empty", &[], Gives::Circle(|_| EMPTY)),
    op("s1.full", &[], Gives::Circle(|_| FULL)),
    op("s1.new", &[CircleEnds], Gives::Circle(|n| Interval::new(n[0], n[1]))).arms(arms::NEW),
    op(
        "s1.from_point_pair",
        &[CirclePoint, CirclePoint],
        Gives::Circle(|n| Interval::from_point_pair(n[0], n[1])),
    )
    .arms(arms::FROM_POINT_PAIR),
    op("s1.is_valid", &[Circle], Gives::Validity(|n| a(n).is_valid())).arms(arms::IS_VALID),
    op("s1.is_full", &[Circle], Gives::Test(|n| a(n).is_full())).arms(arms::IS_FULL),
    op("s1.is_empty", &[Circle], Gives::Test(|n| a(n).is_empty())).arms(arms::IS_EMPTY),
    op("s1.is_inverted", &[Circle], Gives::Test(|n| a(n).is_inverted())),
    op("s1.invert", &[Circle], Gives::Circle(|n| a(n).invert())),
    op("s1.center", &[Circle], Gives::Number(|n| a(n).center())).arms(arms::CENTER),
    op("s1.len", &[Circle], Gives::Number(|n| a(n).len())).arms(arms::LEN),
    op("s1.fast_contains", &[Circle, CirclePoint], Gives::Test(|n| a(n).fast_contains(n[2])))
        .arms(arms::FAST_CONTAINS),
    op("s1.contains", &[Circle, CirclePoint], Gives::Test(|n| a(n).contains(n[2]))).arms(arms::CONTAINS),
    op("s1.contains_interval", &[Circle, Circle], Gives::Test(|n| a(n).contains_interval(&b(n))))
        .arms(arms::CONTAINS_INTERVAL),
    op("s1.interior_contains", &[Circle, CirclePoint], Gives::Test(|n| a(n).interior_contains(n[2])))
        .arms(arms::INTERIOR_CONTAINS),
    op(
        "s1.interior_contains_interval",
        &[Circle, Circle],
        Gives::Test(|n| a(n).interior_contains_interval(&b(n))),
    )
    .arms(arms::INTERIOR_CONTAINS_INTERVAL),
    op("s1.intersects", &[Circle, Circle], Gives::Test(|n| a(n).intersects(&b(n)))).arms(arms::INTERSECTS),
    op("s1.interior_intersects", &[Circle, Circle], Gives::Test(|n| a(n).interior_intersects(&b(n))))
        .arms(arms::INTERIOR_INTERSECTS),
    op("s1.union", &[Circle, Circle], Gives::Circle(|n| a(n).union(&b(n)))).arms(arms::UNION),
    op("s1.intersection", &[Circle, Circle], Gives::Circle(|n| a(n).intersection(&b(n))))
        .arms(arms::INTERSECTION),
    op("s1.expanded", &[Circle, Amount], Gives::Circle(|n| a(n).expanded(n[2]))).arms(arms::EXPANDED),
    op("s1.complement", &[Circle], Gives::Circle(|n| a(n).complement())).arms(arms::COMPLEMENT),
    op("s1.complement_center", &[Circle], Gives::Number(|n| a(n).complement_center()))
        .arms(arms::COMPLEMENT_CENTER),
    op("s1.hausdorff", &[Circle, Circle], Gives::Number(|n| a(n).directed_hausdorff_distance(&b(n)).rad()))
        .arms(arms::HAUSDORFF),
    op("s1.approx_eq", &[Circle, Circle], Gives::Test(|n| a(n).approx_eq(&b(n)))).arms(arms::APPROX_EQ),
    op("s1.approx_eq_by", &[Circle, Circle, Amount], Gives::Test(|n| a(n).approx_eq_by(&b(n), n[4])))
        .arms(arms::APPROX_EQ_BY),
    op("s1.add", &[Circle, CirclePoint], Gives::Circle(|n| a(n) + n[2])).arms(arms::ADD).growing(),
    op("s1.eq", &[Circle, Circle], Gives::Test(|n| a(n) == b(n))).arms(arms::EQ),
    op("s1.to_r1", &[Circle], Gives::Line(|n| a(n).into())),
    op(
        "s1.positive_distance",
        &[CirclePoint, CirclePoint],
        Gives::Number(|n| opened_positive_distance(n[0], n[1])),
    )
    .arms(arms::POSITIVE_DISTANCE),
];

/// The interval whose numbers come first in the question.
fn a(n: &[f64]) -> Interval {
    Interval { lo: n[0], hi: n[1] }
}

/// The interval whose numbers come second.
fn b(n: &[f64]) -> Interval {
    Interval { lo: n[2], hi: n[3] }
}
