//! The questions `growth R | ..` and `running R | ..`: a rectangle grown by the points of a list. `growth`
//! takes the whole list or refuses it whole. `running` makes a call of each point on one box that starts as
//! R: a refused call leaves the box as it is, and the next one is made; the answer says how many were
//! accepted. Both look at the length first, then at R. The numbers of an accepted answer come from the
//! crate's own growth by one point (`rect.add`), first point to last.

mod arms;
mod draw;
mod places;
mod question;
mod stored;
mod tracks;
mod worked;

use question::{Question, Way, MOST_NUMBERS, MOST_POINTS};

use crate::base::answer::{Answer, BAD_LENGTH, BAD_POINT, OF_RECT};
use crate::base::rng::Rng;
use crate::base::words;
use crate::kind::spoils::OF_LISTS;
use crate::kind::worked::written;
use crate::kind::{Arm, Asked, Family, Kind, Spoil, Stored, Wanted, LONG_LIST};

pub const FAMILY: Family = Family {
    checks: places::CHECKS,
    edges,
    runs: &[tracks::RUN],
    ..Family::new(|| vec![&Way::Growth, &Way::Running], || written(worked::WORKED))
};

impl Asked for Question {
    fn line(&self) -> String {
        format!("{}{} |{}", self.way.name(), words::asked(&self.start), words::asked(&self.numbers))
    }

    fn answer(&self) -> Answer {
        let left = self.left();
        let accepted = match self.way {
            Way::Growth => String::new(),
            Way::Running => format!(" {}", left.accepted),
        };
        Answer { refusal: left.refusal.into(), words: accepted + &words::answered(&left.rect) }
    }

    fn arms(&self) -> Vec<Arm> {
        arms::reached(self)
    }

    fn numbers(&self) -> Option<Vec<f64>> {
        Some([&self.start[..], &self.numbers].concat())
    }
}

impl Kind for Way {
    fn name(&self) -> &'static str {
        match self {
            Way::Growth => "growth",
            Way::Running => "running",
        }
    }

    /// A running box is refused with 5 only where a line has a point too many, so that no short one is.
    fn refusals(&self) -> Vec<u8> {
        match self {
            Way::Growth => [&OF_RECT[..], &[BAD_POINT, BAD_LENGTH]].concat(),
            Way::Running => OF_RECT.to_vec(),
        }
    }

    fn arms(&self) -> Vec<Arm> {
        arms::all(*self)
    }

    fn read(&'static self, words: &[&[u8]]) -> Option<Box<dyn Asked>> {
        let (start, list) = words.split_at_checked(4)?;
        let (start, numbers) = (words::numbers(start)?, words::list(list, MOST_NUMBERS)?);
        // Half a point is no call.
        let is_asked = *self == Way::Growth || numbers.len() % 2 == 0;
        is_asked.then(|| Box::new(Question { way: *self, start, numbers }) as Box<dyn Asked>)
    }

    fn draw(&'static self, rng: &mut Rng, _: Wanted) -> Box<dyn Asked> {
        Box::new(draw::short(rng, *self))
    }

    fn stored(&'static self, _: &mut Rng) -> Stored {
        stored::of(*self)
    }

    fn long_arm(&self) -> Option<Arm> {
        Some(LONG_LIST)
    }

    fn draw_long(&'static self, rng: &mut Rng) -> Box<dyn Asked> {
        Box::new(draw::long(rng, *self))
    }

    fn spoils(&self) -> &'static [Spoil] {
        OF_LISTS
    }
}

/// Lists of just so many numbers as growth takes, and of one or two numbers less or more, each number a 1.
/// The start has a negative zero: a refused length hands it back.
fn edges() -> Vec<(String, Vec<u8>)> {
    let input = |way: Way| {
        let list = |count: usize| Question { way, start: [-0.0, 1.0, 0.0, 1.0], numbers: vec![1.0; count] };
        let counts = 2 * MOST_POINTS - 2..=2 * MOST_POINTS + 4;
        let lines = counts.flat_map(|count| (list(count).line() + "\n").into_bytes()).collect();
        (format!("{}-of-most-points", way.name()), lines)
    };
    vec![input(Way::Growth), input(Way::Running)]
}
