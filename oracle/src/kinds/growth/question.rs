//! A question of growth by a list or of the running box, and the rectangle that is left.

use crate::base::answer::{ACCEPTED, BAD_LENGTH};
use crate::base::roles::{plain, Point, Rect, Role, EMPTY};
use crate::kind::op::{find, Op, Value};
use crate::kinds::rect;

/// The most points that are taken, and the most numbers that a line's list may have: one point more.
pub const MOST_POINTS: usize = 4_096;
pub const MOST_NUMBERS: usize = 2 * (MOST_POINTS + 1);

/// Which of the two questions.
#[derive(Clone, Copy, PartialEq)]
pub enum Way {
    Growth,
    Running,
}

/// A question: the rectangle that growth starts with, and the numbers of the list.
#[derive(Clone)]
pub struct Question {
    pub way: Way,
    pub start: Rect,
    pub numbers: Vec<f64>,
}

/// What is left: the refusal number, how many of the calls were accepted, and the rectangle.
#[derive(Clone, Copy)]
pub struct Left {
    pub refusal: u8,
    pub accepted: usize,
    pub rect: Rect,
}

/// A rectangle's bits, by which both zeros are two.
pub fn bits(rect: Rect) -> [u64; 4] {
    rect.map(f64::to_bits)
}

/// Growth by one point, as the table of operations has it.
pub fn one_point() -> &'static Op {
    find(rect::ops::OPS, "rect.add")
}

/// The same by the port's rules: with its refusal, and no negative zero in what is accepted.
pub fn by_one(before: Rect, point: Point) -> (u8, Value) {
    one_point().answer(&[&before[..], &point].concat())
}

pub fn by_the_crate(start: Rect, point: Point) -> Rect {
    one_point().call(&[&start[..], &point].concat()).numbers()
}

impl Question {
    /// The length is looked at before anything else.
    pub fn has_bad_length(&self) -> bool {
        self.numbers.len() % 2 != 0 || self.numbers.len() > 2 * MOST_POINTS
    }

    pub fn points(&self) -> impl DoubleEndedIterator<Item = Point> + '_ {
        self.numbers.chunks_exact(2).map(|n| [n[0], n[1]])
    }

    pub fn left(&self) -> Left {
        let refused = |refusal, rect| Left { refusal, accepted: 0, rect };
        match (self.has_bad_length(), Role::Rect.fault(&self.start)) {
            (true, _) => refused(BAD_LENGTH, self.start),
            (false, ACCEPTED) => match (self.way, self.first_bad()) {
                (Way::Running, _) => self.ran(),
                (Way::Growth, Some(number)) => refused(number, self.start),
                (Way::Growth, None) => self.grown(),
            },
            (false, number) => refused(number, EMPTY),
        }
    }

    /// The refusal number of the first point that has one.
    fn first_bad(&self) -> Option<u8> {
        self.points().map(|point| Role::LatLng.fault(&point)).find(|number| *number != ACCEPTED)
    }

    /// The crate's growth from the first point to the last.
    fn grown(&self) -> Left {
        let rect = self.points().fold(self.start, by_the_crate).map(plain);
        Left { refusal: ACCEPTED, accepted: self.points().count(), rect }
    }

    /// Each point is a call of growth: accepted, its answer is the box; refused, the box keeps every bit.
    fn ran(&self) -> Left {
        let mut left = Left { refusal: ACCEPTED, accepted: 0, rect: self.start };
        for point in self.points() {
            if let (ACCEPTED, grown) = by_one(left.rect, point) {
                left.rect = grown.numbers();
                left.accepted += 1;
            }
        }
        left
    }
}
