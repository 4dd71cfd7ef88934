//! The statements over places for rectangles, and the tests of validity.

use std::f64::consts::FRAC_PI_2;

use super::ops::OPS;
use crate::base::answer::{ACCEPTED, BAD_CIRCLE, BAD_LATITUDE, HALF_EMPTY};
use crate::base::check::{drawn, Check, Statements};
use crate::base::places::{first, held, holds, holds_inside, last, place_of, telling_places, At};
use crate::base::roles::{self, in_reach, rect_is_valid, seam_as_pi, Arc, Point, Rect, Role, EMPTY, FULL};
use crate::draw;
use crate::kind::op::{self, find, Value};
use crate::kinds::{latlng, s1};

pub const CHECKS: &[Check] = &[
    ("tests of validity against the crate's", || {
        let mut count = 0;
        drawn("validity", 200_000, |rng, tried| {
            let tests = [find(s1::ops::OPS, "s1.is_valid"), &latlng::OPS[0], find(OPS, "rect.is_valid")];
            let op = tests[count % 3];
            let n = draw::numbers(rng, op.takes, count % 2 == 0);
            count += 1;
            // Our own tests of validity, which decide refusals, must say what the crate's say of numbers in reach.
            let accepted = op.refusal(&n) == ACCEPTED;
            let same = op.call(&n) == Value::Test(accepted) || !n.iter().all(|x| in_reach(*x));
            tried.hold(same, "the crate's validity is another", || op.written(&n));
        })
    }),
    ("reasons of refusal against the crate's validity", || {
        drawn("reasons", 200_000, |rng, tried| {
            let n = draw::numbers(rng, &[Role::Rect], false);
            let rect = roles::rects(&n)[0];
            let same = Role::Rect.fault(&n) == reason(rect) || !n.iter().all(|x| in_reach(*x));
            tried.hold(same, "the reason is another", || find(OPS, "rect.is_valid").written(&n));
        })
    }),
    ("pairs of rectangles against places", || {
        drawn("places of the globe", 100_000, |rng, tried| {
            let n = draw::numbers(rng, &[Role::Rect, Role::Rect, Role::AmountPair], true);
            let [a, b] = [&n[..4], &n[4..8]].map(|n| roles::rects(n)[0]);
            let p = draw::rect::point(rng, &a[..2], &a[2..]);
            tried.hold_all(statements(a, b, p, [n[8], n[9]]), &[&n[..], &p].concat());
        })
    }),
];

/// Why a rectangle is refused, told by the crate's validity alone: each part is tried beside another part that is good
/// and goes with it.
fn reason([lat_lo, lat_hi, lng_lo, lng_hi]: Rect) -> u8 {
    let is_valid = |rect: Rect| find(OPS, "rect.is_valid").call(&rect) == Value::Test(true);
    let [.., lo, hi] = if lat_lo > lat_hi { EMPTY } else { FULL };
    let [south, north, ..] = if [lng_lo, lng_hi] == EMPTY[2..] { EMPTY } else { FULL };
    match () {
        _ if !is_valid([lat_lo, lat_hi, lo, hi]) => BAD_LATITUDE,
        _ if !is_valid([south, north, lng_lo, lng_hi]) => BAD_CIRCLE,
        _ if !is_valid([lat_lo, lat_hi, lng_lo, lng_hi]) => HALF_EMPTY,
        _ => ACCEPTED,
    }
}

fn yes(name: &str, operands: &[f64]) -> bool {
    op::yes(OPS, name, operands)
}

fn numbers(name: &str, operands: &[f64]) -> Rect {
    op::numbers(OPS, name, operands)
}

fn lng(rect: Rect) -> Arc {
    [rect[2], rect[3]]
}

fn statements(a: Rect, b: Rect, p: Point, margins: [f64; 2]) -> Statements {
    [tests(a, b), point_tests(a, p), joined(a, b), grown(a, p), closed(a), valid(a, b, p, margins)].concat()
}

fn tests(a: Rect, b: Rect) -> Statements {
    let pair = [a, b].concat();
    let places = telling_places(&[a, b]);
    let all = |held: &dyn Fn(At) -> bool| places.iter().all(|at| held(*at));
    let any = |held: &dyn Fn(At) -> bool| places.iter().any(|at| held(*at));
    vec![
        ("contains", yes("rect.contains", &pair) == all(&|at| !held(b, at) || held(a, at))),
        ("intersects", yes("rect.intersects", &pair) == any(&|at| held(a, at) && held(b, at))),
        ("is_empty", yes("rect.is_empty", &a) == !any(&|at| held(a, at))),
        ("is_full", yes("rect.is_full", &a) == all(&|at| held(a, at))),
        ("eq", yes("rect.eq", &pair) == all(&|at| held(a, at) == held(b, at))),
        ("is_point", yes("rect.is_point", &a) == (a[0] == a[1] && a[2] == a[3])),
    ]
}

fn point_tests(a: Rect, p: Point) -> Statements {
    let with_p = [&a[..], &p].concat();
    let inside = a[0] < p[0] && p[0] < a[1] && holds_inside(lng(a), place_of(p[1]));
    vec![
        ("contains_latlng", yes("rect.contains_latlng", &with_p) == held(a, (p[0], place_of(p[1])))),
        ("interior_contains_latlng", yes("rect.interior_contains_latlng", &with_p) == inside),
    ]
}

fn joined(a: Rect, b: Rect) -> Statements {
    let pair = [a, b].concat();
    let union = numbers("rect.union", &pair);
    let common = numbers("rect.intersection", &pair);
    let places = telling_places(&[a, b, union, common]);
    let all = |held: &dyn Fn(At) -> bool| places.iter().all(|at| held(*at));
    let lngs_share = places.iter().any(|at| holds(lng(a), at.1) && holds(lng(b), at.1));
    let within = |whole: Rect| all(&|at| !holds(lng(common), at.1) || holds(lng(whole), at.1));
    vec![
        ("union holds both", all(&|at| held(union, at) || !(held(a, at) || held(b, at)))),
        (
            "union's longitude holds no more",
            !lngs_share || all(&|at| !holds(lng(union), at.1) || holds(lng(a), at.1) || holds(lng(b), at.1)),
        ),
        ("intersection holds what is common", all(&|at| held(common, at) || !(held(a, at) && held(b, at)))),
        ("intersection's longitude lies within one operand's", within(a) || within(b)),
    ]
}

fn grown(a: Rect, p: Point) -> Statements {
    let from = numbers("rect.add", &[&a[..], &p].concat());
    let pair = numbers("rect.from_point_pair", &[p[0], p[1], p[1] / 2.0, p[0]]);
    let seam = seam_as_pi(p[1]);
    let lat_known = |x: f64| x == a[0] || x == a[1] || x == p[0];
    let lng_known = |x: f64| x == a[2] || x == a[3] || x == seam;
    let places = telling_places(&[a, from]);
    vec![
        ("growth holds the start", places.iter().all(|at| !held(a, *at) || held(from, *at))),
        ("growth holds the point", held(from, (p[0], place_of(p[1])))),
        ("growth's latitudes are known", lat_known(from[0]) && lat_known(from[1])),
        ("growth's longitudes are known", lng_known(from[2]) && lng_known(from[3])),
        (
            "a point pair holds both",
            held(pair, (p[0], place_of(p[1]))) && held(pair, (p[1] / 2.0, place_of(p[0]))),
        ),
    ]
}

/// The polar closure holds the rectangle, and every longitude at a pole that the rectangle reaches.
fn closed(a: Rect) -> Statements {
    let closure = numbers("rect.polar_closure", &a);
    let places = telling_places(&[a, closure]);
    let reaches = |pole: f64| places.iter().any(|at| at.0 == pole && held(a, *at));
    let all_at = |pole: f64| {
        [first(), last()].iter().chain(places.iter().map(|at| &at.1)).all(|t| held(closure, (pole, *t)))
    };
    vec![
        ("polar closure holds the rectangle", places.iter().all(|at| !held(a, *at) || held(closure, *at))),
        ("polar closure at the south pole", !reaches(-FRAC_PI_2) || all_at(-FRAC_PI_2)),
        ("polar closure at the north pole", !reaches(FRAC_PI_2) || all_at(FRAC_PI_2)),
    ]
}

/// Valid operands give valid results.
fn valid(a: Rect, b: Rect, p: Point, margins: [f64; 2]) -> Statements {
    let (pair, with_p) = ([a, b].concat(), [&a[..], &p].concat());
    let is_valid = |name: &str, operands: &[f64]| rect_is_valid(numbers(name, operands));
    vec![
        ("from_center_size is valid", is_valid("rect.from_center_size", &[p, margins].concat())),
        ("from_point_pair is valid", is_valid("rect.from_point_pair", &[p, [p[1] / 2.0, p[0]]].concat())),
        ("from_latlng is valid", is_valid("rect.from_latlng", &p)),
        ("expanded is valid", is_valid("rect.expanded", &[&a[..], &margins].concat())),
        ("polar_closure is valid", is_valid("rect.polar_closure", &a)),
        ("union is valid", is_valid("rect.union", &pair)),
        ("intersection is valid", is_valid("rect.intersection", &pair)),
        ("add is valid", is_valid("rect.add", &with_p)),
    ]
}
