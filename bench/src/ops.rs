//! The carried-over operations, one row each, held against the crate's own.

use s2::circle_opened::opened_positive_distance;
use s2::consts::remainder;
use s2::r1::interval::Interval as Line;
use s2::s1::interval::Interval as Circle;
use s2::s2::latlng::LatLng as Point;
use s2::s2::rect::Rect as Box4;

use crate::draw::Rng;
use crate::records::*;
use crate::rows::Row;
use crate::{refused, row};

/// How many inputs an operation has.
pub const CASES: usize = 512;

// ---- the crate's values, and the way back

fn line(i: Interval) -> Line {
    Line { lo: i.lo, hi: i.hi }
}

fn circle(i: Interval) -> Circle {
    Circle { lo: i.lo, hi: i.hi }
}

fn point(p: LatLng) -> Point {
    Point::from_radians(p.lat, p.lng)
}

fn rect(r: Rect) -> Box4 {
    Box4 { lat: line(r.lat), lng: circle(r.lng) }
}

fn yes(value: bool) -> YesNo {
    YesNo { refusal: 0, value }
}

fn num(value: f64) -> Number {
    Number { refusal: 0, value }
}

fn of_line(i: Line) -> IntervalAnswer {
    IntervalAnswer { refusal: 0, value: Interval { lo: i.lo, hi: i.hi } }
}

fn of_circle(i: Circle) -> IntervalAnswer {
    IntervalAnswer { refusal: 0, value: Interval { lo: i.lo, hi: i.hi } }
}

fn of_point(p: Point) -> LatLngAnswer {
    LatLngAnswer { refusal: 0, value: LatLng { lat: p.lat.rad(), lng: p.lng.rad() } }
}

fn back(r: Box4) -> Rect {
    Rect { lat: Interval { lo: r.lat.lo, hi: r.lat.hi }, lng: Interval { lo: r.lng.lo, hi: r.lng.hi } }
}

fn of_rect(r: Box4) -> RectAnswer {
    RectAnswer { refusal: 0, value: back(r) }
}

fn distance(value: f64) -> Distance {
    Distance { refusal: 0, unbounded: value == f64::INFINITY, value }
}

// ---- the rows

#[rustfmt::skip]
pub fn lines(rows: &mut Vec<Row>, g: &mut Rng) {
    row!(rows, "line", "new", sjurnabel_line_new(lo: f64 = g.between(-9.0, 9.0), hi: f64 = g.between(-9.0, 9.0)) -> IntervalAnswer, of_line(Line::new(lo, hi)));
    row!(rows, "line", "from_point", sjurnabel_line_from_point(p: f64 = g.between(-9.0, 9.0)) -> IntervalAnswer, of_line(Line::from_point(p)));
    row!(rows, "line", "from_point_pair", sjurnabel_line_from_point_pair(p: f64 = g.between(-9.0, 9.0), q: f64 = g.between(-9.0, 9.0)) -> IntervalAnswer, of_line(Line::from_point_pair(p, q)));
    row!(rows, "line", "is_empty", sjurnabel_line_is_empty(a: Interval = g.line()) -> YesNo, yes(line(a).is_empty()));
    row!(rows, "line", "center", sjurnabel_line_center(a: Interval = g.line()) -> Number, num(line(a).center()));
    row!(rows, "line", "len", sjurnabel_line_len(a: Interval = g.line()) -> Number, num(line(a).len()));
    row!(rows, "line", "contains", sjurnabel_line_contains(a: Interval = g.line(), p: f64 = g.between(-9.0, 9.0)) -> YesNo, yes(line(a).contains(p)));
    row!(rows, "line", "contains_interval", sjurnabel_line_contains_interval(a: Interval = g.line(), b: Interval = g.line()) -> YesNo, yes(line(a).contains_interval(&line(b))));
    row!(rows, "line", "interior_contains", sjurnabel_line_interior_contains(a: Interval = g.line(), p: f64 = g.between(-9.0, 9.0)) -> YesNo, yes(line(a).interior_contains(p)));
    row!(rows, "line", "interior_contains_interval", sjurnabel_line_interior_contains_interval(a: Interval = g.line(), b: Interval = g.line()) -> YesNo, yes(line(a).interior_contains_interval(&line(b))));
    row!(rows, "line", "intersects", sjurnabel_line_intersects(a: Interval = g.line(), b: Interval = g.line()) -> YesNo, yes(line(a).intersects(&line(b))));
    row!(rows, "line", "interior_intersects", sjurnabel_line_interior_intersects(a: Interval = g.line(), b: Interval = g.line()) -> YesNo, yes(line(a).interior_intersects(&line(b))));
    row!(rows, "line", "intersection", sjurnabel_line_intersection(a: Interval = g.line(), b: Interval = g.line()) -> IntervalAnswer, of_line(line(a).intersection(&line(b))));
    row!(rows, "line", "clamp_point", sjurnabel_line_clamp_point(a: Interval = g.line(), p: f64 = g.between(-9.0, 9.0)) -> Number, num(line(a).clamp_point(p)));
    row!(rows, "line", "expanded", sjurnabel_line_expanded(a: Interval = g.line(), m: f64 = g.between(-1.0, 9.0)) -> IntervalAnswer, of_line(line(a).expanded(m)));
    row!(rows, "line", "union", sjurnabel_line_union(a: Interval = g.line(), b: Interval = g.line()) -> IntervalAnswer, of_line(line(a).union(&line(b))));
    row!(rows, "line", "approx_eq", sjurnabel_line_approx_eq(a: Interval = g.line(), b: Interval = g.line()) -> YesNo, yes(line(a).approx_eq(&line(b))));
    row!(rows, "line", "approx_eq_by", sjurnabel_line_approx_eq_by(a: Interval = g.line(), b: Interval = g.line(), m: f64 = g.between(0.0, 9.0)) -> YesNo, yes(line(a).approx_eq_by(&line(b), m)));
    row!(rows, "line", "directed_hausdorff_distance", sjurnabel_line_directed_hausdorff_distance(a: Interval = g.line(), b: Interval = g.line()) -> Distance, distance(line(a).directed_hausdorff_distance(&line(b))));
    row!(rows, "line", "add", sjurnabel_line_add(a: Interval = g.line(), p: f64 = g.between(-9.0, 9.0)) -> IntervalAnswer, of_line(line(a) + p));
    row!(rows, "line", "eq", sjurnabel_line_eq(a: Interval = g.line(), b: Interval = g.line()) -> YesNo, yes(line(a) == line(b)));
}

#[rustfmt::skip]
pub fn circles(rows: &mut Vec<Row>, g: &mut Rng) {
    row!(rows, "circle", "remainder", sjurnabel_remainder(x: f64 = g.between(-12.0, 12.0)) -> Number, num(remainder(x, 2.0 * std::f64::consts::PI)));
    row!(rows, "circle", "positive_distance", sjurnabel_circle_positive_distance(a: f64 = g.longitude(), b: f64 = g.longitude()) -> Number, num(opened_positive_distance(a, b)));
    row!(rows, "circle", "new", sjurnabel_circle_new(lo: f64 = g.longitude(), hi: f64 = g.longitude()) -> IntervalAnswer, of_circle(Circle::new(lo, hi)));
    row!(rows, "circle", "from_line", sjurnabel_circle_from_line(a: Interval = g.circle()) -> IntervalAnswer, of_circle(line(a).into()));
    row!(rows, "circle", "to_line", sjurnabel_circle_to_line(a: Interval = g.circle()) -> IntervalAnswer, of_line(circle(a).into()));
    row!(rows, "circle", "from_point_pair", sjurnabel_circle_from_point_pair(a: f64 = g.longitude(), b: f64 = g.longitude()) -> IntervalAnswer, of_circle(Circle::from_point_pair(a, b)));
    row!(rows, "circle", "is_valid", sjurnabel_circle_is_valid(a: Interval = g.circle()) -> YesNo, yes(circle(a).is_valid()));
    row!(rows, "circle", "is_full", sjurnabel_circle_is_full(a: Interval = g.circle()) -> YesNo, yes(circle(a).is_full()));
    row!(rows, "circle", "is_empty", sjurnabel_circle_is_empty(a: Interval = g.circle()) -> YesNo, yes(circle(a).is_empty()));
    row!(rows, "circle", "is_inverted", sjurnabel_circle_is_inverted(a: Interval = g.circle()) -> YesNo, yes(circle(a).is_inverted()));
    row!(rows, "circle", "invert", sjurnabel_circle_invert(a: Interval = g.circle()) -> IntervalAnswer, of_circle(circle(a).invert()));
    row!(rows, "circle", "center", sjurnabel_circle_center(a: Interval = g.circle()) -> Number, num(circle(a).center()));
    row!(rows, "circle", "len", sjurnabel_circle_len(a: Interval = g.circle()) -> Number, num(circle(a).len()));
    row!(rows, "circle", "fast_contains", sjurnabel_circle_fast_contains(a: Interval = g.circle(), p: f64 = g.longitude()) -> YesNo, yes(circle(a).fast_contains(p)));
    row!(rows, "circle", "contains", sjurnabel_circle_contains(a: Interval = g.circle(), p: f64 = g.longitude()) -> YesNo, yes(circle(a).contains(p)));
    row!(rows, "circle", "contains_interval", sjurnabel_circle_contains_interval(a: Interval = g.circle(), b: Interval = g.circle()) -> YesNo, yes(circle(a).contains_interval(&circle(b))));
    row!(rows, "circle", "interior_contains", sjurnabel_circle_interior_contains(a: Interval = g.circle(), p: f64 = g.longitude()) -> YesNo, yes(circle(a).interior_contains(p)));
    row!(rows, "circle", "interior_contains_interval", sjurnabel_circle_interior_contains_interval(a: Interval = g.circle(), b: Interval = g.circle()) -> YesNo, yes(circle(a).interior_contains_interval(&circle(b))));
    row!(rows, "circle", "intersects", sjurnabel_circle_intersects(a: Interval = g.circle(), b: Interval = g.circle()) -> YesNo, yes(circle(a).intersects(&circle(b))));
    row!(rows, "circle", "interior_intersects", sjurnabel_circle_interior_intersects(a: Interval = g.circle(), b: Interval = g.circle()) -> YesNo, yes(circle(a).interior_intersects(&circle(b))));
    row!(rows, "circle", "union", sjurnabel_circle_union(a: Interval = g.circle(), b: Interval = g.circle()) -> IntervalAnswer, of_circle(circle(a).union(&circle(b))));
    row!(rows, "circle", "intersection", sjurnabel_circle_intersection(a: Interval = g.circle(), b: Interval = g.circle()) -> IntervalAnswer, of_circle(circle(a).intersection(&circle(b))));
    row!(rows, "circle", "expanded", sjurnabel_circle_expanded(a: Interval = g.circle(), m: f64 = g.between(-0.1, 0.5)) -> IntervalAnswer, of_circle(circle(a).expanded(m)));
    row!(rows, "circle", "complement", sjurnabel_circle_complement(a: Interval = g.circle()) -> IntervalAnswer, of_circle(circle(a).complement()));
    row!(rows, "circle", "complement_center", sjurnabel_circle_complement_center(a: Interval = g.circle()) -> Number, num(circle(a).complement_center()));
    row!(rows, "circle", "directed_hausdorff_distance", sjurnabel_circle_directed_hausdorff_distance(a: Interval = g.circle(), b: Interval = g.circle()) -> Number, num(circle(a).directed_hausdorff_distance(&circle(b)).rad()));
    row!(rows, "circle", "approx_eq", sjurnabel_circle_approx_eq(a: Interval = g.circle(), b: Interval = g.circle()) -> YesNo, yes(circle(a).approx_eq(&circle(b))));
    row!(rows, "circle", "approx_eq_by", sjurnabel_circle_approx_eq_by(a: Interval = g.circle(), b: Interval = g.circle(), m: f64 = g.unit()) -> YesNo, yes(circle(a).approx_eq_by(&circle(b), m)));
    row!(rows, "circle", "add", sjurnabel_circle_add(a: Interval = g.circle(), p: f64 = g.longitude()) -> IntervalAnswer, of_circle(circle(a) + p));
    row!(rows, "circle", "eq", sjurnabel_circle_eq(a: Interval = g.circle(), b: Interval = g.circle()) -> YesNo, yes(circle(a) == circle(b)));
}

#[rustfmt::skip]
pub fn rects(rows: &mut Vec<Row>, g: &mut Rng) {
    row!(rows, "point", "is_valid", sjurnabel_latlng_is_valid(p: LatLng = g.point()) -> YesNo, yes(point(p).is_valid()));
    row!(rows, "rectangle", "from_latlng", sjurnabel_rect_from_latlng(p: LatLng = g.point()) -> RectAnswer, of_rect(Box4::from(point(p))));
    row!(rows, "rectangle", "from_center_size", sjurnabel_rect_from_center_size(p: LatLng = g.point(), s: LatLng = g.margins()) -> RectAnswer, of_rect(Box4::from_center_size(point(p), point(s))));
    row!(rows, "rectangle", "from_point_pair", sjurnabel_rect_from_point_pair(p: LatLng = g.point(), q: LatLng = g.point()) -> RectAnswer, of_rect(Box4::from_point_pair(&point(p), &point(q))));
    row!(rows, "rectangle", "is_valid", sjurnabel_rect_is_valid(a: Rect = g.rect()) -> YesNo, yes(rect(a).is_valid()));
    row!(rows, "rectangle", "is_empty", sjurnabel_rect_is_empty(a: Rect = g.rect()) -> YesNo, yes(rect(a).is_empty()));
    row!(rows, "rectangle", "is_full", sjurnabel_rect_is_full(a: Rect = g.rect()) -> YesNo, yes(rect(a).is_full()));
    row!(rows, "rectangle", "is_point", sjurnabel_rect_is_point(a: Rect = g.rect()) -> YesNo, yes(rect(a).is_point()));
    row!(rows, "rectangle", "is_inverted", sjurnabel_rect_is_inverted(a: Rect = g.rect()) -> YesNo, yes(rect(a).is_inverted()));
    row!(rows, "rectangle", "vertex", sjurnabel_rect_vertex(a: Rect = g.rect(), i: u8 = g.below(4) as u8) -> LatLngAnswer, of_point(rect(a).vertex(i)));
    row!(rows, "rectangle", "lo", sjurnabel_rect_lo(a: Rect = g.rect()) -> LatLngAnswer, of_point(rect(a).lo()));
    row!(rows, "rectangle", "hi", sjurnabel_rect_hi(a: Rect = g.rect()) -> LatLngAnswer, of_point(rect(a).hi()));
    row!(rows, "rectangle", "center", sjurnabel_rect_center(a: Rect = g.rect()) -> LatLngAnswer, of_point(rect(a).center()));
    row!(rows, "rectangle", "size", sjurnabel_rect_size(a: Rect = g.rect()) -> LatLngAnswer, of_point(rect(a).size()));
    row!(rows, "rectangle", "expanded", sjurnabel_rect_expanded(a: Rect = g.rect(), m: LatLng = g.margins()) -> RectAnswer, of_rect(rect(a).expanded(&point(m))));
    row!(rows, "rectangle", "polar_closure", sjurnabel_rect_polar_closure(a: Rect = g.rect()) -> RectAnswer, of_rect(rect(a).polar_closure()));
    row!(rows, "rectangle", "union", sjurnabel_rect_union(a: Rect = g.rect(), b: Rect = g.rect()) -> RectAnswer, of_rect(rect(a).union(&rect(b))));
    row!(rows, "rectangle", "intersection", sjurnabel_rect_intersection(a: Rect = g.rect(), b: Rect = g.rect()) -> RectAnswer, of_rect(rect(a).intersection(&rect(b))));
    row!(rows, "rectangle", "intersects", sjurnabel_rect_intersects(a: Rect = g.rect(), b: Rect = g.rect()) -> YesNo, yes(rect(a).intersects(&rect(b))));
    row!(rows, "rectangle", "interior_intersects", sjurnabel_rect_interior_intersects(a: Rect = g.rect(), b: Rect = g.rect()) -> YesNo, yes(rect(a).interior_intersects(&rect(b))));
    row!(rows, "rectangle", "contains", sjurnabel_rect_contains(a: Rect = g.rect(), b: Rect = g.rect()) -> YesNo, yes(rect(a).contains(&rect(b))));
    row!(rows, "rectangle", "interior_contains", sjurnabel_rect_interior_contains(a: Rect = g.rect(), b: Rect = g.rect()) -> YesNo, yes(rect(a).interior_contains(&rect(b))));
    row!(rows, "rectangle", "contains_latlng", sjurnabel_rect_contains_latlng(a: Rect = g.rect(), p: LatLng = g.point()) -> YesNo, yes(rect(a).contains_latlng(&point(p))));
    row!(rows, "rectangle", "interior_contains_latlng", sjurnabel_rect_interior_contains_latlng(a: Rect = g.rect(), p: LatLng = g.point()) -> YesNo, yes(rect(a).interior_contains_latlng(&point(p))));
    row!(rows, "rectangle", "add", sjurnabel_rect_add(a: Rect = g.rect(), p: LatLng = g.point()) -> RectAnswer, of_rect(&rect(a) + &point(p)));
    row!(rows, "rectangle", "eq", sjurnabel_rect_eq(a: Rect = g.rect(), b: Rect = g.rect()) -> YesNo, yes(rect(a) == rect(b)));
    row!(rows, "rectangle", "approx_eq", sjurnabel_rect_approx_eq(a: Rect = g.rect(), b: Rect = g.rect()) -> YesNo, yes(rect(a).approx_eq(&rect(b))));
    row!(rows, "rectangle", "approx_eq_by", sjurnabel_rect_approx_eq_by(a: Rect = g.rect(), b: Rect = g.rect(), m: LatLng = g.margins()) -> YesNo, yes(rect(a).approx_eq_by(&rect(b), &point(m))));
}

#[rustfmt::skip]
pub fn refusals(rows: &mut Vec<Row>, g: &mut Rng) {
    refused!(rows, 1, "rectangle contains, an end is NaN", sjurnabel_rect_contains(a: Rect = Rect { lat: Interval { lo: f64::NAN, hi: 1.0 }, ..g.rect() }, b: Rect = g.rect()) -> YesNo);
    refused!(rows, 22, "rectangle union, the second is not valid", sjurnabel_rect_union(a: Rect = g.rect(), b: Rect = Rect { lng: Interval { lo: 4.0, hi: 1.0 }, ..g.rect() }) -> RectAnswer);
    refused!(rows, 3, "rectangle contains_latlng, a bad point", sjurnabel_rect_contains_latlng(a: Rect = g.rect(), p: LatLng = LatLng { lat: 2.0, lng: g.longitude() }) -> YesNo);
    refused!(rows, 4, "rectangle expanded, an infinite margin", sjurnabel_rect_expanded(a: Rect = g.rect(), m: LatLng = LatLng { lat: f64::INFINITY, lng: g.unit() }) -> RectAnswer);
}

/// Growth by one point.
pub fn add_one(a: Rect, p: LatLng) -> Rect {
    back(&rect(a) + &point(p))
}

/// A running box, as a user of the crate writes it who has bad points: each is looked at first.
pub fn add_valid(a: Rect, points: &[f64]) -> RunningAnswer {
    let mut r = rect(a);
    let mut accepted = 0;
    for p in points.chunks_exact(2) {
        let p = Point::from_radians(p[0], p[1]);
        if p.is_valid() {
            r = &r + &p;
            accepted += 1;
        }
    }
    RunningAnswer { refusal: 0, accepted, value: back(r) }
}

/// Growth by one point after the other, as a user of the crate writes it.
pub fn add_all(a: Rect, points: &[f64]) -> RectAnswer {
    let mut r = rect(a);
    for p in points.chunks_exact(2) {
        r = &r + &Point::from_radians(p[0], p[1]);
    }
    of_rect(r)
}
