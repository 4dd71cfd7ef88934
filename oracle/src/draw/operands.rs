//! The numbers of a question's operands, by their roles, so that ties and near misses are common.

use std::f64::consts::PI;

use super::number::{out_of_reach, related_or_fresh, signed};
use super::{circle, rect};
use crate::base::rng::Rng;
use crate::base::roles::{places, Rect, Role, REACH, REMAINDER_REACH, TWO_PI};

/// The numbers of a question. `clean`: every operand is one that its role takes.
pub fn numbers(rng: &mut Rng, takes: &[Role], clean: bool) -> Vec<f64> {
    let on_circle = takes.contains(&Role::Circle);
    let mut drawn: Vec<f64> = Vec::new();
    for role in takes {
        match role {
            Role::Line => line(rng, &mut drawn),
            Role::Circle => drawn.extend(circle::interval(rng, &drawn)),
            Role::CircleEnds => drawn.extend(circle::ends(rng)),
            Role::CirclePoint => drawn.push(circle::point(rng, &drawn)),
            Role::Rect => drawn.extend(rect::rect(rng, &drawn)),
            Role::LatLng | Role::AmountPair => {
                let (lats, lngs) = parts(takes, &drawn);
                drawn.extend(match role {
                    Role::LatLng => rect::point(rng, &lats, &lngs),
                    _ => rect::amounts(rng, &lats, &lngs),
                });
            }
            Role::VertexNumber => drawn.push(rect::vertex_number(rng)),
            Role::Amount if on_circle => drawn.push(circle::amount(rng, &drawn)),
            Role::LinePoint | Role::Amount | Role::RemainderArgument => {
                drawn.push(related_or_fresh(rng, *role, &drawn))
            }
        }
    }
    if !clean && !drawn.is_empty() {
        spoil(rng, takes, &mut drawn);
    }
    drawn
}

/// The latitudes and the longitudes among the numbers drawn so far.
fn parts(takes: &[Role], drawn: &[f64]) -> (Vec<f64>, Vec<f64>) {
    let (mut lats, mut lngs) = (Vec::new(), Vec::new());
    for ((role, place), x) in places(takes).zip(drawn) {
        match (role, place) {
            (Role::Rect, 0 | 1) | (Role::LatLng, 0) => lats.push(*x),
            (Role::Rect, _) | (Role::LatLng, _) => lngs.push(*x),
            _ => {}
        }
    }
    (lats, lngs)
}

/// Adds a line interval.
fn line(rng: &mut Rng, drawn: &mut Vec<f64>) {
    let lo = related_or_fresh(rng, Role::Line, drawn);
    drawn.push(lo);
    let hi = related_or_fresh(rng, Role::Line, drawn);
    drawn.push(hi);
    // Two free numbers make an empty interval half of the time: too often.
    if lo > hi && rng.percent(65) {
        let end = drawn.len();
        drawn.swap(end - 2, end - 1);
    }
}

/// Spoils one of so many things: the first, the last or any; now and then a second one too.
pub fn spoil_some(rng: &mut Rng, count: usize, mut spoil: impl FnMut(&mut Rng, usize)) {
    if count == 0 {
        return;
    }
    for _ in 0..rng.pick(&[1, 1, 1, 2]) {
        let at = match rng.below(4) {
            0 => 0,
            1 => count - 1,
            _ => rng.below(count),
        };
        spoil(rng, at);
    }
}

/// Makes one number one that its role does not take, and each other one now and then. Others become
/// -0, since what a refusal hands back must keep its bits.
fn spoil(rng: &mut Rng, takes: &[Role], drawn: &mut [f64]) {
    let places: Vec<(Role, usize)> = places(takes).collect();
    if let Some(rect) = some_rect(rng, takes) {
        if rng.percent(20) {
            rect::half_empty(rng, &mut drawn[rect..rect + 4]);
            // Mostly nothing else is wrong.
            if rng.percent(70) {
                return;
            }
        }
    }
    let sure = rng.below(drawn.len());
    for (at, x) in drawn.iter_mut().enumerate() {
        let (role, place) = places[at];
        if at == sure || rng.percent(20) {
            *x = outside(rng, role, place);
        } else if role != Role::VertexNumber && rng.percent(15) {
            *x = -0.0;
        }
    }
}

/// Where the numbers of a rectangle begin, any one of the question's.
fn some_rect(rng: &mut Rng, takes: &[Role]) -> Option<usize> {
    let is_start = |(role, place): &(Role, usize)| *role == Role::Rect && *place == 0;
    let places: Vec<(Role, usize)> = places(takes).collect();
    let starts: Vec<usize> = (0..places.len()).filter(|at| is_start(&places[*at])).collect();
    (!starts.is_empty()).then(|| rng.pick(&starts))
}

/// A number that the role does not take, or does not take in most places (-PI in a circle interval).
pub fn outside(rng: &mut Rng, role: Role, place: usize) -> f64 {
    match (role, place) {
        (Role::RemainderArgument, _) if rng.percent(50) => {
            let x = rng.pick(&[REMAINDER_REACH.next_up(), REMAINDER_REACH * 1.25, 13.0, 1e9, REACH]);
            signed(rng, x)
        }
        (Role::Circle, _) | (Role::Rect, 2 | 3) if rng.percent(25) => -PI,
        (Role::Circle | Role::CircleEnds | Role::CirclePoint, _)
        | (Role::Rect, 2 | 3)
        | (Role::LatLng, 1)
            if rng.percent(50) =>
        {
            let x = rng.pick(&[PI.next_up(), PI.next_up(), 3.5, 4.0, TWO_PI, 1e9, REACH]);
            signed(rng, x)
        }
        (Role::Rect, 0 | 1) | (Role::LatLng, 0) => rect::no_latitude(rng),
        // Every vertex number is taken.
        (Role::VertexNumber, _) => rect::vertex_number(rng),
        _ => out_of_reach(rng),
    }
}

/// A rectangle that is refused with this number. At times it shows other faults too, which are tested after that one.
pub fn bad_rect(rng: &mut Rng, number: u8) -> Rect {
    loop {
        let mut drawn = rect::rect(rng, &[]);
        if rng.percent(40) {
            rect::half_empty(rng, &mut drawn);
        }
        for _ in 0..rng.pick(&[0, 1, 1, 2]) {
            let at = rng.below(4);
            drawn[at] = outside(rng, Role::Rect, at);
        }
        if Role::Rect.fault(&drawn) == number {
            return drawn;
        }
    }
}
