//! What document 01 and demand 3 say of the common region, over places; and document 02 of a list that is refused.

use std::f64::consts::PI;

use super::draw;
use super::question::{faults, pieces};
use crate::base::answer::{Refusal, ACCEPTED, BAD_LENGTH};
use crate::base::check::{drawn, Check, Statements};
use crate::base::places::{at, first, held, is_full, last, telling_places, At, Place};
use crate::base::roles::{rect_is_valid, rects, Rect};

pub const CHECKS: &[Check] = &[("lists of rectangles against places", || {
    drawn("places of lists", 50_000, |rng, tried| {
        let numbers = draw::short(rng).numbers;
        match pieces(&numbers) {
            Ok(pieces) => tried.hold_all(statements(&rects(&numbers), &pieces), &numbers),
            Err(refusal) => tried.hold_all(refused(&numbers, refusal), &numbers),
        }
    })
})];

fn refused(numbers: &[f64], refusal: Refusal) -> Statements {
    let Some(entry) = refusal.entry else {
        return vec![(
            "a list whose entries are not looked at has a bad length",
            refusal.number == BAD_LENGTH,
        )];
    };
    let (before, rest) = numbers.split_at(4 * entry);
    vec![
        ("the entries before the refused one are good", faults(before).iter().all(|n| *n == ACCEPTED)),
        ("the refused entry has the number that it has by itself", {
            pieces(&rest[..4]).err() == Some(Refusal::at(refusal.number, 0))
        }),
        ("what comes after the refused entry changes nothing", {
            pieces(&numbers[..4 * entry + 4]).err() == Some(refusal)
        }),
    ]
}

fn statements(given: &[Rect], pieces: &[Rect]) -> Statements {
    let in_pieces = |place: At| pieces.iter().filter(|piece| held(**piece, place)).count();
    let in_all = |place: At| given.iter().all(|rect| held(*rect, place));
    let places = telling_places(&[given, pieces].concat());
    let everywhere = |test: &dyn Fn(At) -> bool| places.iter().all(|place| test(*place));
    let ends_there = |piece: &Rect| {
        let beyond = [west_of(at(piece[2])), east_of(at(piece[3]))];
        is_full([piece[2], piece[3]]) || beyond.iter().all(|lng| !in_all((piece[0], *lng)))
    };
    vec![
        (
            "pieces are valid and not empty",
            pieces.iter().all(|piece| rect_is_valid(*piece) && piece[0] <= piece[1]),
        ),
        ("a place lies in a piece exactly when it lies in every rectangle", {
            everywhere(&|place| (in_pieces(place) > 0) == in_all(place))
        }),
        ("no place lies in two pieces", everywhere(&|place| in_pieces(place) < 2)),
        ("no two pieces can be joined", pieces.iter().all(ends_there)),
        ("western edges rise", pieces.windows(2).all(|pair| pair[0][2] < pair[1][2])),
        ("at most as many pieces as rectangles, and one for none", pieces.len() <= given.len().max(1)),
    ]
}

fn east_of(lng: Place) -> Place {
    if lng == last() {
        first()
    } else {
        lng + 1
    }
}

/// The place before this one. -PI is the place PI.
fn west_of(lng: Place) -> Place {
    match lng {
        _ if lng == at(-PI) => last() - 1,
        _ if lng == first() => last(),
        _ => lng - 1,
    }
}
