//! A question whose operands are doubles of a fixed count, and whose answer is the crate's: a row of a table.
//! The row says the name, what it takes, what it gives with the call of the crate, and the arms of the Rust
//! function. All else follows from these (`asked.rs`, `stored.rs`).

mod asked;
mod stored;

use std::f64::consts::PI;

use s2::r1::interval::Interval as LineInterval;
use s2::s1::interval::Interval as CircleInterval;
use s2::s2::latlng::LatLng;
use s2::s2::rect::Rect as CrateRect;

use super::arms::{Arms, Part};
use super::Kind;
use crate::base::answer::{ACCEPTED, BAD_POINT};
use crate::base::roles::{self, plain, Role, EMPTY};
use crate::base::words;

/// What an operation gives, by a call of the crate on the operands as they came. It decides what a refusal
/// answers instead.
#[derive(Clone, Copy)]
pub enum Gives {
    Line(fn(&[f64]) -> LineInterval),
    Circle(fn(&[f64]) -> CircleInterval),
    Rect(fn(&[f64]) -> CrateRect),
    Number(fn(&[f64]) -> f64),
    /// two numbers, for latitude and longitude
    NumberPair(fn(&[f64]) -> LatLng),
    Test(fn(&[f64]) -> bool),
    /// a test of validity: what is not valid is refused, so an accepted answer is always yes
    Validity(fn(&[f64]) -> bool),
    /// a distance, or Unbounded: the crate's infinity
    Distance(fn(&[f64]) -> f64),
}

/// The result part of an answer.
#[derive(Clone, PartialEq)]
pub enum Value {
    Numbers(Vec<f64>),
    Test(bool),
    Unbounded,
}

/// A function of an interval that a function of the rectangle calls on one part of its operands.
pub struct Inner {
    /// "lat" or "lng"
    pub part: &'static str,
    pub arms: &'static [Arms],
    /// The numbers that it is called with, or None if it is not called.
    pub called_with: Part,
    /// Arms that no valid rectangle reaches. They are not wanted.
    pub never: &'static [&'static str],
}

/// One operation.
pub struct Op {
    name: &'static str,
    pub takes: &'static [Role],
    gives: Gives,
    /// the arms of the Rust function itself
    arms: &'static [Arms],
    /// the functions that it calls on parts of its operands: their arms are wanted too
    inner: &'static [Inner],
    /// whether a bad point hands the first operand back
    grows: bool,
    /// what document 01 answers where it sets the crate's answer aside
    instead: fn(&[f64]) -> Option<Vec<f64>>,
}

/// An operation and its numbers, as they came.
pub struct Question {
    pub op: &'static Op,
    pub numbers: Vec<f64>,
}

/// A row of a table.
pub const fn op(name: &'static str, takes: &'static [Role], gives: Gives) -> Op {
    Op { name, takes, gives, arms: &[], inner: &[], grows: false, instead: |_| None }
}

impl Op {
    pub const fn arms(self, arms: &'static [Arms]) -> Op {
        Op { arms, ..self }
    }

    pub const fn calling(self, inner: &'static [Inner]) -> Op {
        Op { inner, ..self }
    }

    pub const fn growing(self) -> Op {
        Op { grows: true, ..self }
    }

    pub const fn unless(self, instead: fn(&[f64]) -> Option<Vec<f64>>) -> Op {
        Op { instead, ..self }
    }
}

/// The questions of a table.
pub fn kinds(table: &'static [Op]) -> Vec<&'static dyn Kind> {
    table.iter().map(|op| op as &dyn Kind).collect()
}

/// The row of that name.
pub fn find(table: &'static [Op], name: &str) -> &'static Op {
    table.iter().find(|op| op.name == name).expect("an operation of the table")
}

/// The accepted answer of a row that says yes or no.
pub fn yes(table: &'static [Op], name: &str, numbers: &[f64]) -> bool {
    find(table, name).accepted(numbers) == Value::Test(true)
}

/// The accepted answer of a row that gives numbers.
pub fn numbers<const COUNT: usize>(table: &'static [Op], name: &str, operands: &[f64]) -> [f64; COUNT] {
    find(table, name).accepted(operands).numbers()
}

impl Value {
    pub fn numbers<const COUNT: usize>(self) -> [f64; COUNT] {
        match self {
            Value::Numbers(given) => given.try_into().expect("so many numbers"),
            _ => unreachable!("no numbers"),
        }
    }

    fn words(&self) -> String {
        match self {
            Value::Numbers(numbers) => words::answered(numbers),
            Value::Test(yes) => format!(" {}", u8::from(*yes)),
            Value::Unbounded => " U".to_string(),
        }
    }
}

impl Op {
    /// How many numbers a question has.
    fn width(&self) -> usize {
        self.takes.iter().map(|role| role.width()).sum()
    }

    pub fn refusal(&self, numbers: &[f64]) -> u8 {
        roles::refusal(self.takes, numbers)
    }

    /// Calls the crate.
    pub fn call(&self, n: &[f64]) -> Value {
        let given = match self.gives {
            Gives::Test(call) | Gives::Validity(call) => return Value::Test(call(n)),
            Gives::Distance(call) if call(n) == f64::INFINITY => return Value::Unbounded,
            Gives::Number(call) | Gives::Distance(call) => vec![call(n)],
            Gives::NumberPair(call) => pair(call(n)),
            Gives::Line(call) => line(call(n)),
            Gives::Circle(call) => circle(call(n)),
            Gives::Rect(call) => corners(call(n)).to_vec(),
        };
        Value::Numbers(given)
    }

    /// What a refused question answers beside its number. What is handed back keeps its bits.
    fn refused(&self, number: u8, numbers: &[f64]) -> Value {
        let given: &[f64] = match self.gives {
            Gives::Test(_) | Gives::Validity(_) => return Value::Test(false),
            _ if self.grows && number == BAD_POINT => &numbers[..self.takes[0].width()],
            Gives::Line(_) => &[1.0, 0.0],
            Gives::Circle(_) => &[PI, -PI],
            Gives::Rect(_) => &EMPTY,
            Gives::Number(_) | Gives::Distance(_) => &[0.0],
            Gives::NumberPair(_) => &[0.0, 0.0],
        };
        Value::Numbers(given.to_vec())
    }

    /// The refusal number and the result. An accepted answer has no negative zero.
    pub fn answer(&self, numbers: &[f64]) -> (u8, Value) {
        let refusal = self.refusal(numbers);
        if refusal != ACCEPTED {
            return (refusal, self.refused(refusal, numbers));
        }
        let given = (self.instead)(numbers).map_or_else(|| self.call(numbers), Value::Numbers);
        match given {
            Value::Numbers(given) => (refusal, Value::Numbers(given.into_iter().map(plain).collect())),
            other => (refusal, other),
        }
    }

    fn accepted(&self, numbers: &[f64]) -> Value {
        let (refusal, value) = self.answer(numbers);
        assert!(refusal == ACCEPTED, "refused: {}", self.written(numbers));
        value
    }

    pub fn written(&self, numbers: &[f64]) -> String {
        let mut line = String::from(self.name);
        for ((role, _), number) in roles::places(self.takes).zip(numbers) {
            line.push_str(&match role {
                Role::VertexNumber => format!(" {:02X}", *number as u8),
                _ => words::asked(&[*number]),
            });
        }
        line
    }
}

fn pair(pair: LatLng) -> Vec<f64> {
    vec![pair.lat.rad(), pair.lng.rad()]
}

fn line(interval: LineInterval) -> Vec<f64> {
    vec![interval.lo, interval.hi]
}

fn circle(interval: CircleInterval) -> Vec<f64> {
    vec![interval.lo, interval.hi]
}

/// The numbers of a rectangle of the crate.
pub fn corners(rect: CrateRect) -> [f64; 4] {
    [rect.lat.lo, rect.lat.hi, rect.lng.lo, rect.lng.hi]
}
