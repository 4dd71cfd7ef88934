//! What document 01 says of growth by a list of points, over places; and how the whole list, the running box
//! and growth by one point agree. What document 02 says of the running box is tried on whole tracks
//! (`tracks.rs`).

use super::draw;
use super::question::{bits, by_one, Left, Question, Way};
use super::tracks;
use crate::base::answer::{ACCEPTED, BAD_POINT};
use crate::base::check::{drawn, Check, Statements};
use crate::base::places::{held, place_of, telling_places};
use crate::base::roles::{is_negative_zero, rect_is_valid, seam_as_pi, Point, Rect};
use crate::kind::Asked;

pub const CHECKS: &[Check] = &[
    ("lists of points against places", || {
        drawn("places of growth", 50_000, |rng, tried| {
            let drawn = draw::short(rng, Way::Growth);
            let numbers = drawn.numbers().unwrap_or_default();
            tried.hold_all(statements(drawn.start, &drawn.numbers), &numbers);
        })
    }),
    ("tracks against the promises of the running box", tracks::of_the_oracle),
];

fn asked(way: Way, start: Rect, list: &[f64]) -> Left {
    Question { way, start, numbers: list.to_vec() }.left()
}

fn statements(start: Rect, list: &[f64]) -> Statements {
    let points: Vec<Point> = list.chunks_exact(2).map(|n| [n[0], n[1]]).collect();
    let (growth, running) = (asked(Way::Growth, start, list), asked(Way::Running, start, list));
    match growth.refusal {
        ACCEPTED => {
            let grown = growth.rect;
            [over_places(start, &points, grown), in_parts(start, &points, grown)].concat()
        }
        BAD_POINT => vec![
            ("a bad point hands back the start's bits", bits(growth.rect) == bits(start)),
            ("a bad point does not refuse the running box", running.refusal == ACCEPTED),
        ],
        number => {
            let alike = running.refusal == number && bits(running.rect) == bits(growth.rect);
            vec![
                ("a list or a start is refused alike for the running box", alike),
                ("no call of it was accepted", running.accepted == 0),
            ]
        }
    }
}

fn over_places(start: Rect, points: &[Point], grown: Rect) -> Statements {
    let places = telling_places(&[start, grown]);
    let lat_known = |x: f64| x == start[0] || x == start[1] || points.iter().any(|p| p[0] == x);
    let lng_known = |x: f64| x == start[2] || x == start[3] || points.iter().any(|p| seam_as_pi(p[1]) == x);
    vec![
        ("growth holds the start", places.iter().all(|at| !held(start, *at) || held(grown, *at))),
        ("growth holds every point", points.iter().all(|p| held(grown, (p[0], place_of(p[1]))))),
        ("growth is valid", rect_is_valid(grown)),
        ("growth's latitudes are known", lat_known(grown[0]) && lat_known(grown[1])),
        ("growth's longitudes are known", lng_known(grown[2]) && lng_known(grown[3])),
        ("growth writes no negative zero", !grown.iter().any(|x| is_negative_zero(*x))),
    ]
}

/// The list may be cut anywhere, and into its single points.
fn in_parts(start: Rect, points: &[Point], grown: Rect) -> Statements {
    let one_more = |before: Rect, p: &Point| by_one(before, *p).1.numbers();
    let cut_at = |at: usize| {
        let first = asked(Way::Growth, start, &points[..at].concat()).rect;
        asked(Way::Growth, first, &points[at..].concat()).rect
    };
    let running = asked(Way::Running, start, &points.concat());
    let last = if points.is_empty() { start } else { grown };
    vec![
        ("growth is growth by one point after the other", points.iter().fold(start, one_more) == grown),
        ("growth by a list is growth by its parts", (0..=points.len()).all(|at| cut_at(at) == grown)),
        ("the running box becomes the same", bits(running.rect) == bits(last)),
        ("and all its calls are accepted", running.accepted == points.len()),
    ]
}
