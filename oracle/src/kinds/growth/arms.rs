//! The arms of growth by a list and of the running box: those of the crate's growth by one point, reached at
//! any accepted point of the list, and what a list can have that one point cannot.

use super::question::{by_one, one_point, Left, Question, Way};
use crate::base::answer::{ACCEPTED, BAD_LENGTH, BAD_POINT, OF_RECT, OUT_OF_REACH, WHY_NOT_VALID};
use crate::base::roles::{is_negative_zero, Point, Rect, Role, EMPTY};
use crate::kind::arms::{hits, named, Row};
use crate::kind::{Arm, Kind, LONG_LIST, SHORT};

/// What happened to a list: the answer, and each point with the box before it and its refusal number.
struct Seen {
    asked: Question,
    left: Left,
    steps: Vec<Step>,
}

struct Step {
    before: Rect,
    point: Point,
    refusal: u8,
}

/// Wanted of both questions: the start goes before a bad point.
const OF_BOTH: &[Row<Seen>] = &[
    ("an empty list", |seen| seen.accepted() && seen.asked.numbers.is_empty()),
    ("an empty list, start with -0", |seen| {
        seen.accepted() && seen.asked.numbers.is_empty() && has_negative_zero(&seen.asked.start)
    }),
    ("an empty list, start out of reach", |seen| {
        seen.left.refusal == OUT_OF_REACH && seen.asked.numbers.is_empty()
    }),
    ("an empty list, start not valid", |seen| {
        WHY_NOT_VALID.contains(&seen.left.refusal) && seen.asked.numbers.is_empty()
    }),
    ("one point", |seen| seen.accepted() && seen.steps.len() == 1),
    ("the start is empty, but not the standard one", |seen| {
        let [lo, hi, ..] = seen.asked.start;
        seen.accepted() && lo > hi && [lo, hi] != EMPTY[..2] && !seen.steps.is_empty()
    }),
    ("two points or more enlarge the box", |seen| seen.accepted() && seen.enlarged() > 1),
    ("a point carries the box over the seam", |seen| {
        let inverted = |rect: &Rect| rect[2] > rect[3] && rect[0] <= rect[1];
        let plain = |rect: &Rect| rect[2] <= rect[3];
        seen.accepted() && seen.boxes().windows(2).any(|two| plain(&two[0]) && inverted(&two[1]))
    }),
    ("the order of the points matters", |seen| seen.accepted() && backwards(&seen.asked) != seen.left.rect),
    ("a point is refused, start with -0", |seen| seen.any_refused() && has_negative_zero(&seen.asked.start)),
    ("the first point alone is refused", |seen| seen.refused_alone(0)),
    ("the last point alone is refused", |seen| seen.refused_alone(seen.steps.len().wrapping_sub(1))),
    ("a point in the middle is refused", |seen| {
        let inner = seen.steps.len().saturating_sub(2);
        seen.steps.iter().skip(1).take(inner).any(Step::is_refused)
    }),
    ("start refused, a point is bad too", |seen| {
        OF_RECT.contains(&seen.left.refusal) && seen.any_bad_point()
    }),
];

/// Wanted of growth: the length goes before all else. (A running box has a bad length only where it is long.)
const OF_GROWTH: &[Row<Seen>] = &[
    ("length refused, start not valid", |seen| seen.left.refusal == BAD_LENGTH && !seen.valid_start()),
    ("length refused, start with -0", |seen| {
        seen.left.refusal == BAD_LENGTH && has_negative_zero(&seen.asked.start)
    }),
    ("length refused, a point is bad too", |seen| seen.left.refusal == BAD_LENGTH && seen.any_bad_point()),
];

/// Wanted of the running box: what a refused call leaves.
const OF_RUNNING: &[Row<Seen>] = &[
    ("a call is accepted after a refused one", |seen| {
        let refused = seen.steps.iter().position(Step::is_refused);
        refused.is_some_and(|at| seen.steps[at..].iter().any(|step| !step.is_refused()))
    }),
    ("a call is refused after an accepted one", |seen| {
        let stored = seen.steps.iter().position(|step| !step.is_refused());
        stored.is_some_and(|at| seen.steps[at..].iter().any(Step::is_refused))
    }),
    ("every call is refused, start with -0", |seen| {
        seen.any_refused() && seen.left.accepted == 0 && has_negative_zero(&seen.asked.start)
    }),
    ("a point that is held reads the start's -0", |seen| {
        let start = seen.asked.start;
        seen.left.accepted > 0 && has_negative_zero(&start) && start == seen.left.rect
    }),
];

fn own(way: Way) -> [&'static [Row<Seen>]; 2] {
    [OF_BOTH, if way == Way::Running { OF_RUNNING } else { OF_GROWTH }]
}

/// All arms. Those that are asked of every operation are among the ones of growth by one point.
pub fn all(way: Way) -> Vec<Arm> {
    own(way).into_iter().flat_map(named).chain(Kind::arms(one_point())).collect()
}

/// The arms that a question reaches.
pub fn reached(asked: &Question) -> Vec<Arm> {
    let seen = Seen { asked: asked.clone(), left: asked.left(), steps: steps(asked) };
    let mut hit: Vec<Arm> = own(asked.way).into_iter().flat_map(|rows| hits(rows, &seen)).collect();
    // A list that is refused whole is not grown by any point.
    for step in seen.steps.iter().filter(|step| seen.accepted() && !step.is_refused()) {
        for arm in one_point().reached(&[&step.before[..], &step.point].concat()) {
            if !hit.contains(&arm) {
                hit.push(arm);
            }
        }
    }
    if asked.numbers.len() / 2 > SHORT {
        hit.push(LONG_LIST);
    }
    hit
}

/// Each point with the box before it, as the running box meets them. None where the length or the start is
/// refused.
fn steps(asked: &Question) -> Vec<Step> {
    let mut steps = Vec::new();
    let mut before = asked.start;
    if asked.has_bad_length() || Role::Rect.fault(&before) != ACCEPTED {
        return steps;
    }
    for point in asked.points() {
        let (refusal, grown) = by_one(before, point);
        steps.push(Step { before, point, refusal });
        if refusal == ACCEPTED {
            before = grown.numbers();
        }
    }
    steps
}

/// What the same points in the other order leave.
fn backwards(asked: &Question) -> Rect {
    let numbers = asked.points().rev().collect::<Vec<_>>().concat();
    Question { way: asked.way, start: asked.start, numbers }.left().rect
}

fn has_negative_zero(rect: &Rect) -> bool {
    rect.iter().any(|x| is_negative_zero(*x))
}

impl Step {
    fn is_refused(&self) -> bool {
        self.refusal == BAD_POINT
    }
}

impl Seen {
    fn accepted(&self) -> bool {
        self.left.refusal == ACCEPTED
    }

    fn valid_start(&self) -> bool {
        Role::Rect.fault(&self.asked.start) == ACCEPTED
    }

    fn any_bad_point(&self) -> bool {
        self.asked.points().any(|point| Role::LatLng.fault(&point) != ACCEPTED)
    }

    fn any_refused(&self) -> bool {
        self.steps.iter().any(Step::is_refused)
    }

    /// The boxes before each point, and the last one.
    fn boxes(&self) -> Vec<Rect> {
        self.steps.iter().map(|step| step.before).chain([self.left.rect]).collect()
    }

    /// How many points change the box.
    fn enlarged(&self) -> usize {
        self.boxes().windows(2).filter(|two| two[0] != two[1]).count()
    }

    /// Whether of several points this one is refused with 3, and no other one.
    fn refused_alone(&self, at: usize) -> bool {
        self.steps.len() > 1
            && self.steps.iter().enumerate().all(|(place, step)| step.is_refused() == (place == at))
    }
}
