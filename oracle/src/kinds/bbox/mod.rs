//! The questions of GeoJSON bounding boxes: `bbox.read BYTES`, `bbox.write ROOM W W W W` and
//! `bbox.rect W W W W`. The crate has no such texts: reading and writing are a reference of our own, from
//! RFC 7946, RFC 8259 and document 02. The radians are the crate's own, by its `Rect::from_degrees`.

mod arms;
pub mod bounds;
mod checks;
mod damage;
pub mod draw;
mod edges;
mod question;
mod stored;
pub mod text;
mod texts;
mod worked;

use bounds::{rect_of, Bounds};
use question::{box_of, read_sides, text_of, Question, Sides, Way, Whole, LONG_TEXT, MOST_ROOM};

pub use question::read_text;

use crate::base::answer::{Answer, ACCEPTED, BAD_BOUNDS, BAD_TEXT, NO_ROOM};
use crate::base::rng::Rng;
use crate::base::roles::{Rect, EMPTY};
use crate::base::words;
use crate::kind::spoils::OF_WORDS;
use crate::kind::{Arm, Asked, Family, Kind, Spoil, Stored, Wanted};

pub const FAMILY: Family = Family {
    checks: checks::CHECKS,
    edges: edges::all,
    ..Family::new(|| vec![&Way::Read, &Way::Write, &Way::Rect], worked::all)
};

/// What each byte of the output text is before.
const BEFORE: &str = "_";

impl Asked for Question {
    fn line(&self) -> String {
        let written = |sides: &Sides| sides.each_ref().map(Whole::to_string).join(" ");
        match self {
            Question::Read { text } => format!("bbox.read {}", words::hex(text)),
            Question::Write { room, sides } => format!("bbox.write {room} {}", written(sides)),
            Question::Rect { sides } => format!("bbox.rect {}", written(sides)),
        }
    }

    /// A refused reading answers four zeros, a refused writing writes nothing, and a refused conversion answers
    /// the standard empty.
    fn answer(&self) -> Answer {
        match self {
            Question::Read { text } => {
                let bounds = |bounds: Bounds| bounds.map(|number| format!(" {number}")).concat();
                answered(read_text(text), bounds, [0; 4])
            }
            Question::Write { room, sides } => {
                let written = |text: String| {
                    let space = if *room == 0 { "" } else { " " };
                    format!(" {}{space}{}", text.len(), text.clone() + &BEFORE.repeat(room - text.len()))
                };
                answered(text_of(sides, *room), written, String::new())
            }
            Question::Rect { sides } => {
                let rect = box_of(sides).map(rect_of);
                answered(rect, |rect: Rect| words::answered(&rect), EMPTY)
            }
        }
    }

    fn arms(&self) -> Vec<Arm> {
        arms::reached(self)
    }
}

fn answered<T>(decided: Result<T, u8>, words: impl Fn(T) -> String, refused: T) -> Answer {
    match decided {
        Ok(given) => Answer { refusal: ACCEPTED.into(), words: words(given) },
        Err(number) => Answer { refusal: number.into(), words: words(refused) },
    }
}

impl Kind for Way {
    fn name(&self) -> &'static str {
        match self {
            Way::Read => "bbox.read",
            Way::Write => "bbox.write",
            Way::Rect => "bbox.rect",
        }
    }

    fn refusals(&self) -> Vec<u8> {
        match self {
            Way::Read => vec![BAD_TEXT, BAD_BOUNDS],
            Way::Write => vec![NO_ROOM, BAD_BOUNDS],
            Way::Rect => vec![BAD_BOUNDS],
        }
    }

    fn arms(&self) -> Vec<Arm> {
        arms::all(*self)
    }

    fn read(&'static self, words: &[&[u8]]) -> Option<Box<dyn Asked>> {
        let asked = match (self, words) {
            (Way::Read, [text]) => Question::Read { text: words::bytes(text)? },
            (Way::Write, [room, sides @ ..]) => {
                Question::Write { room: words::whole(room, MOST_ROOM)?, sides: read_sides(sides)? }
            }
            (Way::Rect, sides) => Question::Rect { sides: read_sides(sides)? },
            _ => return None,
        };
        Some(Box::new(asked))
    }

    fn draw(&'static self, rng: &mut Rng, _: Wanted) -> Box<dyn Asked> {
        Box::new(draw::short(rng, *self))
    }

    fn stored(&'static self, _: &mut Rng) -> Stored {
        stored::of(*self)
    }

    fn long_arm(&self) -> Option<Arm> {
        (*self == Way::Read).then_some(LONG_TEXT)
    }

    fn draw_long(&'static self, rng: &mut Rng) -> Box<dyn Asked> {
        match self {
            Way::Read => Box::new(draw::long(rng)),
            Way::Write | Way::Rect => self.draw(rng, Wanted::Any),
        }
    }

    fn spoils(&self) -> &'static [Spoil] {
        OF_WORDS
    }
}
