//! The statements over places for circle intervals.

use std::f64::consts::PI;

use super::ops::OPS;
use crate::base::check::{drawn, Check, Statements};
use crate::base::places::{holds, holds_inside, place_of, telling, Place};
use crate::base::roles::Role::{Amount, Circle};
use crate::base::roles::{circle_is_valid, seam_as_pi, Arc, REMAINDER_REACH};
use crate::draw;
use crate::kind::op::{self, find};

pub const CHECKS: &[Check] = &[("pairs of circle intervals against places", || {
    drawn("places of the circle", 200_000, |rng, tried| {
        let n = draw::numbers(rng, &[Circle, Circle, Amount], true);
        let p = draw::circle::point(rng, &n[..4]);
        tried.hold_all(statements([n[0], n[1]], [n[2], n[3]], p, n[4]), &[&n[..], &[p]].concat());
    })
})];

fn yes(name: &str, operands: &[f64]) -> bool {
    op::yes(OPS, name, operands)
}

fn numbers(name: &str, operands: &[f64]) -> Arc {
    op::numbers(OPS, name, operands)
}

fn statements(a: Arc, b: Arc, p: f64, margin: f64) -> Statements {
    [tests(a, b, p), joined(a, b), grown(a, p), valid(a, b, p, margin), remainders(a, margin)].concat()
}

fn tests(a: Arc, b: Arc, p: f64) -> Statements {
    let (pair, with_p) = ([a, b].concat(), [&a[..], &[p]].concat());
    let places = telling(&pair);
    let all = |held: &dyn Fn(Place) -> bool| places.iter().all(|place| held(*place));
    let any = |held: &dyn Fn(Place) -> bool| places.iter().any(|place| held(*place));
    vec![
        ("contains_interval", yes("s1.contains_interval", &pair) == all(&|t| !holds(b, t) || holds(a, t))),
        ("intersects", yes("s1.intersects", &pair) == any(&|t| holds(a, t) && holds(b, t))),
        (
            "interior_contains_interval",
            yes("s1.interior_contains_interval", &pair) == all(&|t| !holds(b, t) || holds_inside(a, t)),
        ),
        (
            "interior_intersects",
            yes("s1.interior_intersects", &pair) == any(&|t| holds_inside(a, t) && holds(b, t)),
        ),
        ("contains", yes("s1.contains", &with_p) == holds(a, place_of(p))),
        ("fast_contains", yes("s1.fast_contains", &with_p) == fast(a, p)),
        ("interior_contains", yes("s1.interior_contains", &with_p) == holds_inside(a, place_of(p))),
        ("is_empty", yes("s1.is_empty", &a) == !any(&|t| holds(a, t))),
        ("is_full", yes("s1.is_full", &a) == all(&|t| holds(a, t))),
        ("eq", yes("s1.eq", &pair) == all(&|t| holds(a, t) == holds(b, t))),
    ]
}

/// `fast_contains` is the place test but for -PI, which it does not find in [x, PI] with x above -PI.
fn fast(a: Arc, p: f64) -> bool {
    holds(a, place_of(p)) && !(p == -PI && a[0] > -PI && a[0] <= a[1] && a[1] == PI)
}

fn joined(a: Arc, b: Arc) -> Statements {
    let pair = [a, b].concat();
    let (union, common) = (numbers("s1.union", &pair), numbers("s1.intersection", &pair));
    let complement = numbers("s1.complement", &a);
    let places = telling(&[&pair[..], &union, &common, &complement].concat());
    let all = |held: &dyn Fn(Place) -> bool| places.iter().all(|place| held(*place));
    let share = places.iter().any(|t| holds(a, *t) && holds(b, *t));
    vec![
        ("union holds both", all(&|t| holds(union, t) || !(holds(a, t) || holds(b, t)))),
        ("union holds no more", !share || all(&|t| !holds(union, t) || holds(a, t) || holds(b, t))),
        ("intersection holds what is common", all(&|t| holds(common, t) || !(holds(a, t) && holds(b, t)))),
        (
            "intersection lies within one operand",
            all(&|t| !holds(common, t) || holds(a, t)) || all(&|t| !holds(common, t) || holds(b, t)),
        ),
        ("complement", all(&|t| holds(complement, t) != holds_inside(a, t))),
    ]
}

fn grown(a: Arc, p: f64) -> Statements {
    let from = numbers("s1.add", &[&a[..], &[p]].concat());
    let pair = numbers("s1.from_point_pair", &[a[0], p]);
    let seam = seam_as_pi(p);
    let known = |x: f64| x == a[0] || x == a[1] || x == seam;
    let places = telling(&[&a[..], &from, &[p]].concat());
    vec![
        ("growth holds the start", places.iter().all(|t| !holds(a, *t) || holds(from, *t))),
        ("growth holds the point", holds(from, place_of(p))),
        ("growth's ends are known", known(from[0]) && known(from[1])),
        ("a point pair holds both", holds(pair, place_of(a[0])) && holds(pair, place_of(p))),
    ]
}

/// Valid operands give valid results.
fn valid(a: Arc, b: Arc, p: f64, margin: f64) -> Statements {
    let pair = [a, b].concat();
    vec![
        ("new is valid", circle_is_valid(numbers("s1.new", &[a[0], p]))),
        ("from_point_pair is valid", circle_is_valid(numbers("s1.from_point_pair", &[p, a[1]]))),
        ("invert is valid", circle_is_valid(numbers("s1.invert", &a))),
        ("union is valid", circle_is_valid(numbers("s1.union", &pair))),
        ("intersection is valid", circle_is_valid(numbers("s1.intersection", &pair))),
        ("expanded is valid", circle_is_valid(numbers("s1.expanded", &[&a[..], &[margin]].concat()))),
        ("complement is valid", circle_is_valid(numbers("s1.complement", &a))),
        ("add is valid", circle_is_valid(numbers("s1.add", &[&a[..], &[p]].concat()))),
    ]
}

/// Where `expanded` takes remainders at all, it takes them of numbers that `remainder` accepts.
fn remainders(a: Arc, margin: f64) -> Statements {
    let reached = find(OPS, "s1.expanded").reached(&[a[0], a[1], margin]);
    let taken = reached.iter().any(|arm| arm.name == "grown" || arm.name == "shrunk");
    let accepted = |x: f64| x.abs() <= REMAINDER_REACH;
    vec![("expanded asks within 4 PI", !taken || (accepted(a[0] - margin) && accepted(a[1] + margin)))]
}
