//! The table of operations: calls of the crate.

use s2::r1::interval::Interval as LineInterval;
use s2::s1::interval::Interval as CircleInterval;
use s2::s2::latlng::LatLng as CrateLatLng;
use s2::s2::rect::Rect as CrateRect;

use super::arms;
use super::differences;
use crate::base::roles::Role::{AmountPair, LatLng, Rect, VertexNumber};
use crate::kind::op::{op, Gives, Op};

pub const OPS: &[Op] = &[
    op("rect.empty", &[], Gives::Rect(|_| CrateRect::empty())),
    op("rect.full", &[], Gives::Rect(|_| CrateRect::full())),
    op(
        "rect.from_center_size",
        &[LatLng, AmountPair],
        Gives::Rect(|n| CrateRect::from_center_size(point(n, 0), point(n, 2))),
    )
    .arms(arms::FROM_CENTER_SIZE)
    .unless(differences::center_at_the_seam),
    op(
        "rect.from_point_pair",
        &[LatLng, LatLng],
        Gives::Rect(|n| CrateRect::from_point_pair(&point(n, 0), &point(n, 2))),
    )
    .calling(arms::FROM_POINT_PAIR),
    op("rect.from_latlng", &[LatLng], Gives::Rect(|n| CrateRect::from(point(n, 0))))
        .arms(arms::FROM_LATLNG)
        .unless(differences::latlng_at_the_seam),
    op("rect.is_valid", &[Rect], Gives::Validity(|n| a(n).is_valid())).arms(arms::IS_VALID),
    op("rect.is_empty", &[Rect], Gives::Test(|n| a(n).is_empty())).arms(arms::IS_EMPTY),
    op("rect.is_full", &[Rect], Gives::Test(|n| a(n).is_full())).arms(arms::IS_FULL),
    op("rect.is_point", &[Rect], Gives::Test(|n| a(n).is_point())).arms(arms::IS_POINT),
    op("rect.is_inverted", &[Rect], Gives::Test(|n| a(n).is_inverted())).arms(arms::IS_INVERTED),
    op("rect.vertex", &[Rect, VertexNumber], Gives::NumberPair(|n| a(n).vertex(n[4] as u8)))
        .arms(arms::VERTEX),
    op("rect.lo", &[Rect], Gives::NumberPair(|n| a(n).lo())),
    op("rect.hi", &[Rect], Gives::NumberPair(|n| a(n).hi())),
    op("rect.center", &[Rect], Gives::NumberPair(|n| a(n).center())).calling(arms::CENTER),
    op("rect.size", &[Rect], Gives::NumberPair(|n| a(n).size())).calling(arms::SIZE),
    op("rect.expanded", &[Rect, AmountPair], Gives::Rect(|n| a(n).expanded(&point(n, 4))))
        .arms(arms::EXPANDED_ITSELF)
        .calling(arms::EXPANDED),
    op("rect.polar_closure", &[Rect], Gives::Rect(|n| a(n).polar_closure()))
        .arms(arms::POLAR_CLOSURE)
        .unless(differences::closure_of_an_empty_one),
    op("rect.union", &[Rect, Rect], Gives::Rect(|n| a(n).union(&b(n)))).calling(arms::UNION),
    op("rect.intersection", &[Rect, Rect], Gives::Rect(|n| a(n).intersection(&b(n))))
        .arms(arms::INTERSECTION_ITSELF)
        .calling(arms::INTERSECTION),
    op("rect.intersects", &[Rect, Rect], Gives::Test(|n| a(n).intersects(&b(n)))).calling(arms::INTERSECTS),
    op("rect.interior_intersects", &[Rect, Rect], Gives::Test(|n| a(n).interior_intersects(&b(n))))
        .calling(arms::INTERIOR_INTERSECTS),
    op("rect.contains", &[Rect, Rect], Gives::Test(|n| a(n).contains(&b(n)))).calling(arms::CONTAINS),
    op("rect.interior_contains", &[Rect, Rect], Gives::Test(|n| a(n).interior_contains(&b(n))))
        .calling(arms::INTERIOR_CONTAINS),
    op("rect.contains_latlng", &[Rect, LatLng], Gives::Test(|n| a(n).contains_latlng(&point(n, 4))))
        .calling(arms::CONTAINS_LATLNG),
    op(
        "rect.interior_contains_latlng",
        &[Rect, LatLng],
        Gives::Test(|n| a(n).interior_contains_latlng(&point(n, 4))),
    )
    .calling(arms::INTERIOR_CONTAINS_LATLNG),
    op("rect.add", &[Rect, LatLng], Gives::Rect(|n| &a(n) + &point(n, 4))).calling(arms::ADD).growing(),
    op("rect.eq", &[Rect, Rect], Gives::Test(|n| a(n) == b(n))).calling(arms::EQ),
    op("rect.approx_eq", &[Rect, Rect], Gives::Test(|n| a(n).approx_eq(&b(n)))).calling(arms::APPROX_EQ),
    op(
        "rect.approx_eq_by",
        &[Rect, Rect, AmountPair],
        Gives::Test(|n| a(n).approx_eq_by(&b(n), &point(n, 8))),
    )
    .calling(arms::APPROX_EQ_BY),
];

/// The rectangle whose numbers begin here.
fn rect(n: &[f64]) -> CrateRect {
    CrateRect { lat: LineInterval { lo: n[0], hi: n[1] }, lng: CircleInterval { lo: n[2], hi: n[3] } }
}

/// The rectangle whose numbers come first in the question.
fn a(n: &[f64]) -> CrateRect {
    rect(n)
}

/// The rectangle whose numbers come second.
fn b(n: &[f64]) -> CrateRect {
    rect(&n[4..])
}

/// The point, or the pair of margins, sizes or errors, whose numbers begin here.
fn point(n: &[f64], start: usize) -> CrateLatLng {
    CrateLatLng::from_radians(n[start], n[start + 1])
}
