//! Drawing questions that reach something: a refusal, an arm, yes or no.

use crate::base::answer::ACCEPTED;
use crate::base::rng::Rng;
use crate::kind::{Arm, Asked, Kind, Says, Wanted};

/// What a question is to reach.
#[derive(Clone, Copy)]
pub enum Aim {
    Anything,
    Refusal(u8),
    Arm(Arm),
    Says(bool),
}

/// What is aimed at beside refusals, in turn.
pub fn aims(kind: &dyn Kind) -> Vec<Aim> {
    let mut aims: Vec<Aim> = kind.arms().into_iter().map(Aim::Arm).collect();
    if kind.says() == Says::YesOrNo {
        aims.extend([Aim::Says(true), Aim::Says(false)]);
    }
    aims
}

fn reaches(asked: &dyn Asked, aim: Aim) -> bool {
    match aim {
        Aim::Anything => true,
        Aim::Refusal(wanted) => asked.refusal() == wanted,
        Aim::Arm(wanted) => asked.arms().contains(&wanted),
        Aim::Says(wanted) => asked.answer().text() == format!("{ACCEPTED} {}", u8::from(wanted)),
    }
}

/// Draws until the aim is reached. An aim that is never reached shows later, in the tally.
pub fn aimed(rng: &mut Rng, kind: &'static dyn Kind, aim: Aim) -> Box<dyn Asked> {
    let wanted = match aim {
        Aim::Anything => Wanted::Any,
        Aim::Refusal(_) => Wanted::Refused,
        Aim::Arm(_) | Aim::Says(_) => Wanted::Accepted,
    };
    let mut asked = kind.draw(rng, wanted);
    for _ in 1..kind.tries() {
        if reaches(asked.as_ref(), aim) {
            break;
        }
        asked = kind.draw(rng, wanted);
    }
    asked
}

/// The question as a line, now and then in lower or mixed case: digits of either case are read.
pub fn written(rng: &mut Rng, kind: &dyn Kind, asked: &dyn Asked) -> Vec<u8> {
    let mut line = asked.line().into_bytes();
    let lower = match rng.below(20) {
        0 => 100,
        1 => 50,
        _ => 0,
    };
    for byte in &mut line[kind.name().len()..] {
        if rng.percent(lower) {
            *byte = byte.to_ascii_lowercase();
        }
    }
    line
}
