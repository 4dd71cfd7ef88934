//! The stored questions of `growth` and `running`: starts and points that are special by their kind, bad ones
//! at each position, lists in every order, the longest lists, and lines that are no question. Both have the
//! same, but for the longest: such a line takes 140 kB.

use std::f64::consts::{FRAC_PI_2, PI};

use super::question::{Question, Way, MOST_POINTS};
use crate::base::roles::{Point, Rect, BEYOND, EMPTY, NEXT_TO_SEAM, REACH};
use crate::draw::rect::{FAULTY, KNOWN};
use crate::kind::spoils::OF_LISTS;
use crate::kind::{boxed, Asked, Kind, Stored};

/// A start with nothing special about it, one with negative zeros, and one on each side of the seam.
const PLAIN: Rect = [0.0, 1.0, 0.0, 1.0];
const ZEROS: Rect = [-0.0, 1.0, -0.0, 1.0];
const WEST: Rect = [0.0, 1.0, 2.0, 3.0];
const OVER: Rect = [0.0, 1.0, 3.0, -3.0];

/// Starts that are refused, some with negative zeros, and two that have them and are empty or a point.
const ODD_STARTS: &[Rect] = &[
    [2.0, 2.0, 0.0, 1.0],
    [-0.0, 2.0, -0.0, 1.0],
    [0.0, 1.0, -PI, -0.0],
    [-0.0, 1.0, PI, -PI],
    [1.0, -0.0, 0.0, 1.0],
    [f64::NAN, -0.0, 0.0, 1.0],
    [-0.0, 1.0, 0.0, f64::INFINITY],
    [2.0, 2.0, f64::NEG_INFINITY, -0.0],
    [-0.0, 1.0, 0.0, BEYOND],
    [REACH, 1.0, -0.0, 1.0],
    [0.5, -0.0, PI, -PI],
    [-0.0, -0.0, -0.0, 0.0],
    [f64::NAN, 1.0, 0.0, 1.0],
];

/// Points that are taken: zeros, the seam by both names and its neighbours, poles, the smallest numbers.
const POINTS: &[Point] = &[
    [0.5, 0.5],
    [0.0, 0.0],
    [-0.0, -0.0],
    [-0.0, 0.5],
    [0.5, -0.0],
    [0.5, PI],
    [0.5, -PI],
    [0.5, -NEXT_TO_SEAM],
    [0.5, NEXT_TO_SEAM],
    [FRAC_PI_2, 0.5],
    [-FRAC_PI_2, 0.5],
    [FRAC_PI_2, -PI],
    [-FRAC_PI_2, PI],
    [1.5, 1.5],
    [-1.5, -1.5],
    [5e-324, -5e-324],
    [0.5, 0.5 - PI],
    [0.5, 2.0],
    [0.5, -2.0],
];

/// Points that are none: just beyond a pole or the seam, far beyond, infinite, NaN, of either sign.
const BAD_POINTS: &[Point] = &[
    [f64::NAN, 0.5],
    [0.5, f64::NAN],
    [f64::from_bits(0xFFFF_FFFF_FFFF_FFFF), f64::from_bits(0x7FF0_0000_0000_0001)],
    [f64::from_bits(0x3FF9_21FB_5444_2D19), 0.5],
    [f64::from_bits(0xBFF9_21FB_5444_2D19), 0.5],
    [0.5, f64::from_bits(0x4009_21FB_5444_2D19)],
    [0.5, f64::from_bits(0xC009_21FB_5444_2D19)],
    [0.5, 4.0],
    [2.0, 0.5],
    [f64::INFINITY, 0.5],
    [0.5, f64::NEG_INFINITY],
    [-REACH, 0.5],
    [0.5, BEYOND],
];

pub fn of(way: Way) -> Stored {
    let kinds = [no_points, one_point, bad_at_each_position, bad_alone, bad_lengths, orders];
    let asked = kinds.into_iter().flat_map(|kind| kind(way));
    // Half a point is no call.
    let (special, halves): (Vec<_>, Vec<_>) =
        asked.partition(|asked| way == Way::Growth || asked.numbers.len() % 2 == 0);
    let halves = halves.iter().map(|asked| asked.line().into_bytes());
    Stored {
        special: boxed(special),
        each_arm: 3,
        free: 40,
        longest: boxed(longest(way)),
        no_questions: no_questions(way).into_iter().chain(halves).collect(),
        // A list too long is tried by `oracle/edges`.
        spoils: OF_LISTS.split_last().map_or(&[], |(_, others)| others),
        last: Vec::new(),
    }
}

fn grow(way: Way, start: Rect, points: &[Point]) -> Question {
    Question { way, start, numbers: points.concat() }
}

/// An empty list: the start is read, its zeros too, and refused where it is out of reach or not valid.
fn no_points(way: Way) -> Vec<Question> {
    let starts = KNOWN.iter().chain(ODD_STARTS).chain(FAULTY).chain([&ZEROS]);
    starts.map(|start| grow(way, *start, &[])).collect()
}

/// Each point from each of a few starts, and from each other start one point, in turn, and a bad one.
fn one_point(way: Way) -> Vec<Question> {
    let few = [PLAIN, EMPTY, ZEROS, OVER];
    let mut asked: Vec<Question> =
        POINTS.iter().flat_map(|point| few.map(|start| grow(way, start, &[*point]))).collect();
    let bad = BAD_POINTS.iter().enumerate();
    asked.extend(bad.map(|(at, point)| grow(way, few[at % few.len()], &[*point])));
    for (at, start) in KNOWN.iter().chain(ODD_STARTS).enumerate() {
        asked.push(grow(way, *start, &[POINTS[at % POINTS.len()]]));
        asked.push(grow(way, *start, &[BAD_POINTS[at % BAD_POINTS.len()]]));
    }
    asked
}

/// Five points that all enlarge the box: at each position each kind of bad point in turn, alone, with a bad
/// last one, and with a start that is refused.
fn bad_at_each_position(way: Way) -> Vec<Question> {
    let good = [[0.5, 0.5], [-0.5, 2.0], [1.25, -1.0], [-1.25, 3.0], [FRAC_PI_2, -PI]];
    let mut asked = Vec::new();
    for (at, bad) in (0..good.len()).flat_map(|at| BAD_POINTS.iter().map(move |bad| (at, bad))) {
        let mut points = good;
        points[at] = *bad;
        asked.push(grow(way, ZEROS, &points));
    }
    for (at, start) in [PLAIN, EMPTY, ODD_STARTS[1], ODD_STARTS[5], ODD_STARTS[10]].into_iter().enumerate() {
        let mut points = good;
        points[at] = BAD_POINTS[at];
        points[4] = BAD_POINTS[at + 1];
        asked.push(grow(way, start, &points));
    }
    asked.push(grow(way, ZEROS, &good));
    asked
}

/// Bad points alone: a start that is refused goes before them, and any other one comes back with its bits.
fn bad_alone(way: Way) -> Vec<Question> {
    let starts = ODD_STARTS.iter().chain([&ZEROS, &PLAIN, &EMPTY, &OVER]);
    let lists = [&BAD_POINTS[5..8], BAD_POINTS];
    starts.flat_map(|start| lists.map(|list| grow(way, *start, list))).collect()
}

/// The list of five points cut off after each number: the length is looked at before a start that is not
/// valid and before a bad point, and what comes back keeps its bits.
fn bad_lengths(way: Way) -> Vec<Question> {
    let points = [[0.5, 0.5], [f64::NAN, 2.0], [1.25, -1.0], [-1.25, 3.0], [0.5, 4.0]].concat();
    let cut = |start: Rect, count: usize| Question { way, start, numbers: points[..count].to_vec() };
    let each = (0..=points.len()).flat_map(|count| [cut(ZEROS, count), cut(ODD_STARTS[1], count)]);
    each.chain(ODD_STARTS.iter().map(|start| cut(*start, 1))).collect()
}

/// Points whose order decides what the box becomes, in every order, from several starts; and points that
/// carry it over the seam, eastward and westward.
fn orders(way: Way) -> Vec<Question> {
    const OF_THREE: [[usize; 3]; 6] = [[0, 1, 2], [0, 2, 1], [1, 0, 2], [1, 2, 0], [2, 0, 1], [2, 1, 0]];
    let threes: [[Point; 3]; 3] = [
        [[0.5, 0.0], [0.5, PI], [-0.5, 1.0]],
        [[0.5, -2.0], [0.25, 0.5], [0.75, 2.5]],
        [[-FRAC_PI_2, 3.0], [FRAC_PI_2, -3.0], [0.0, -PI]],
    ];
    let mut asked = Vec::new();
    for (three, order) in threes.iter().flat_map(|three| OF_THREE.map(|order| (three, order))) {
        let points = order.map(|at| three[at]);
        asked.extend([EMPTY, WEST].map(|start| grow(way, start, &points)));
    }
    // docs/ANSWERS.md: the fewest calls whose order matters, and three of which one order needs less
    for points in [&[[0.0, 0.0], [0.0, PI]][..], &[[0.0, 0.0], [0.0, 2.0], [0.0, -2.0]]] {
        let turned = [&points[1..], &points[..1]].concat();
        asked.extend([points, &turned].map(|points| grow(way, EMPTY, points)));
    }
    asked.push(grow(way, ZEROS, &[[0.5, 2.0], [1.0, 4.0], [1.0, -0.5]]));
    asked.push(grow(way, ZEROS, &[[1.0, 4.0]]));
    let east: Vec<Point> = [3.1, PI, -PI, NEXT_TO_SEAM, -3.1, -2.0].map(|lng| [0.5, lng]).to_vec();
    let west: Vec<Point> = east.iter().rev().map(|[lat, lng]| [*lat, -lng]).collect();
    for count in 1..=east.len() {
        asked.push(grow(way, WEST, &east[..count]));
        asked.push(grow(way, [0.0, 1.0, -3.0, -2.0], &west[..count]));
    }
    asked
}

/// The most points, each of which enlarges the box, and one point too many. Of the running box's every
/// 64th is bad, the last one too. What is refused with 5 has a start that is not valid.
fn longest(way: Way) -> [Question; 2] {
    let step = |at: usize| {
        let lng = 2.0 + at as f64 / 2_048.0;
        [at as f64 / 4_096.0, if lng > PI { lng - 2.0 * PI } else { lng }]
    };
    let is_bad = |at: usize| way == Way::Running && at % 64 == 63;
    let point = |at: usize| if is_bad(at) { [step(at)[0], 4.0] } else { step(at) };
    let points: Vec<Point> = (0..=MOST_POINTS).map(point).collect();
    [grow(way, EMPTY, &points[..MOST_POINTS]), grow(way, ODD_STARTS[1], &points)]
}

/// Rectangles and bars of the wrong form.
fn no_questions(way: Way) -> Vec<Vec<u8>> {
    let number = "3FF0000000000000";
    let four = [number; 4].join(" ");
    let forms = [
        String::new(),
        " |".to_string(),
        format!(" {four}"),
        format!(" {four}|"),
        format!(" {four} | "),
        format!(" {four}  |"),
        format!(" {four} ||"),
        format!(" {four} | |"),
        format!(" {four} |{number}"),
        format!(" {four} | {number} "),
        format!(" {four} | {number}  {number}"),
        format!(" {four} | {number} | {number}"),
        format!(" {four} {number} |"),
        format!(" {four} {number} {number}"),
        format!(" | {four}"),
        format!(" 4 | {four}"),
    ];
    forms.map(|form| format!("{}{form}", way.name()).into_bytes()).to_vec()
}
