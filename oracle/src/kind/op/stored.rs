//! What is stored of an operation: boundary values in every place; circle intervals, rectangles, vertex numbers and
//! arguments of the remainder with something special about them, rectangles with several faults among them.

use super::{Op, Question};
use crate::base::roles::{self, Role, TWO_PI};
use crate::draw::{self, EDGES, OUTSIDE};
use crate::kind::{boxed, Kind, Says, Stored, EACH_REFUSAL};

/// At least this many questions an operation, and this many of them drawn freely.
const LEAST: usize = 110;
const FREE: usize = 20;
const EACH_ARM: usize = 3;

pub fn of(op: &'static Op) -> Stored {
    let special = [boundaries(op), known(op)].concat();
    let tests = if op.says() == Says::YesOrNo { 2 } else { 0 };
    let aimed = EACH_REFUSAL * op.refusals().len() + EACH_ARM * (Kind::arms(op).len() + tests);
    let free = FREE.max(LEAST.saturating_sub(special.len() + aimed));
    let special = boxed(special.into_iter().map(|numbers| Question { op, numbers }));
    Stored { special, each_arm: EACH_ARM, free, ..Stored::default() }
}

/// An operand with nothing special about it. Two intervals meet, and both hold a point of 0.5.
fn plain(role: Role, first: bool) -> &'static [f64] {
    match role {
        Role::Line | Role::Circle | Role::CircleEnds if first => &[0.0, 1.0],
        Role::Line | Role::Circle | Role::CircleEnds => &[0.5, 2.0],
        Role::Rect if first => &[0.0, 1.0, 0.0, 1.0],
        Role::Rect => &[0.5, 1.5, 0.5, 2.0],
        Role::LatLng | Role::AmountPair => &[0.5, 0.5],
        Role::VertexNumber => &[2.0],
        Role::LinePoint | Role::CirclePoint | Role::Amount | Role::RemainderArgument => &[0.5],
    }
}

/// A question with nothing special about it.
fn plain_question(op: &Op) -> Vec<f64> {
    op.takes.iter().enumerate().flat_map(|(at, role)| plain(*role, at == 0)).copied().collect()
}

/// Each boundary value in one place of a plain question, the places in turn.
fn boundaries(op: &Op) -> Vec<Vec<f64>> {
    let places: Vec<usize> = starts(op, |role, _| role != Role::VertexNumber);
    // Four values of each edge: it and its negative, and of these one neighbour each. A rectangle's
    // questions are long: they have one of the four, in turn.
    let around = |x: f64| [x, -x, x.next_up(), (-x).next_up()];
    let long = op.takes.contains(&Role::Rect);
    let edges = EDGES.iter().flat_map(|bits| around(f64::from_bits(*bits))).enumerate();
    let chosen = edges.filter(|(at, _)| !long || at % 4 == at / 4 % 4).map(|(_, x)| x);
    let values: Vec<f64> = chosen.chain(OUTSIDE.iter().map(|bits| f64::from_bits(*bits))).collect();
    let every = if long { 1 } else { 4 };
    let put = |(at, x): (usize, &f64)| with(op, places[at / every % places.len()], &[*x]);
    values.iter().enumerate().filter(|_| !places.is_empty()).map(put).collect()
}

/// Circle intervals and rectangles with something special about them, vertex numbers, and of the remainder
/// what lies just below a bound (just above is a boundary value), each in a plain question, the operands in turn.
fn known(op: &Op) -> Vec<Vec<f64>> {
    let arcs: Vec<[f64; 2]> = draw::circle::KNOWN.iter().map(|ends| ends.map(f64::from_bits)).collect();
    let numbers: Vec<[f64; 1]> = [0, 1, 2, 3, 4, 7, 127, 128, 254, 255].map(|k| [f64::from(k)]).to_vec();
    let bounds = [0.5, 1.5, 2.0].iter().flat_map(|turns| [turns * TWO_PI, -turns * TWO_PI]);
    let below: Vec<[f64; 1]> = bounds.map(|bound| [bound.next_down()]).collect();
    let is_arc = |role, place| match role {
        Role::Circle | Role::CircleEnds => place == 0,
        Role::Rect => place == 2,
        _ => false,
    };
    let is_rect = |role, place| role == Role::Rect && place == 0;
    let is_number = |role, _| role == Role::VertexNumber;
    let is_argument = |role, _| role == Role::RemainderArgument;
    [
        in_turn(op, &arcs, &starts(op, is_arc)),
        in_turn(op, draw::rect::KNOWN, &starts(op, is_rect)),
        in_turn(op, draw::rect::FAULTY, &starts(op, is_rect)),
        in_turn(op, &numbers, &starts(op, is_number)),
        in_turn(op, &below, &starts(op, is_argument)),
    ]
    .concat()
}

fn in_turn<const WIDTH: usize>(op: &Op, pieces: &[[f64; WIDTH]], starts: &[usize]) -> Vec<Vec<f64>> {
    let put = |(at, piece): (usize, &[f64; WIDTH])| with(op, starts[at % starts.len()], piece);
    pieces.iter().enumerate().filter(|_| !starts.is_empty()).map(put).collect()
}

/// Where such a number stands among the numbers of a question.
fn starts(op: &Op, is_one: impl Fn(Role, usize) -> bool) -> Vec<usize> {
    roles::places(op.takes)
        .enumerate()
        .filter(|(_, (role, place))| is_one(*role, *place))
        .map(|(at, _)| at)
        .collect()
}

/// A plain question with these numbers in it from `start` on.
fn with(op: &Op, start: usize, piece: &[f64]) -> Vec<f64> {
    let mut numbers = plain_question(op);
    numbers[start..start + piece.len()].copy_from_slice(piece);
    numbers
}
