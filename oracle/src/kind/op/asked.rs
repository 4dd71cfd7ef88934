//! What a row of a table is as a kind of question: how it is read, drawn and written, and its arms.

use super::{stored, Gives, Inner, Op, Question};
use crate::base::answer::{Answer, ACCEPTED};
use crate::base::rng::Rng;
use crate::base::roles::{self, is_negative_zero, Role};
use crate::base::words;
use crate::draw;
use crate::kind::{arms, Arm, Asked, Kind, Says, Stored, Wanted};

/// Arms that are asked of every operation with operands: kinds of operands that the port must read right.
const NEGATIVE_ZERO: Arm = Arm::of("an operand is -0");
const LARGEST: Arm = Arm::of("an operand is at the end of reach");

impl Op {
    /// The arms that an accepted question reaches.
    pub fn reached(&self, numbers: &[f64]) -> Vec<Arm> {
        let mut hit: Vec<Arm> = arms::reached(self.arms, numbers).into_iter().map(Arm::of).collect();
        for Inner { part, arms: its, called_with, .. } in self.inner {
            if let Some(numbers) = called_with(numbers) {
                hit.extend(arms::reached(its, &numbers).into_iter().map(|name| Arm { part, name }));
            }
        }
        if numbers.iter().any(|x| is_negative_zero(*x)) {
            hit.push(NEGATIVE_ZERO);
        }
        let largest = self.takes.iter().flat_map(|role| role.largest());
        if largest.zip(numbers).any(|(most, x)| x.abs() == *most) {
            hit.push(LARGEST);
        }
        hit
    }
}

impl Kind for Op {
    fn name(&self) -> &'static str {
        self.name
    }

    fn refusals(&self) -> Vec<u8> {
        roles::refusals(self.takes)
    }

    fn arms(&self) -> Vec<Arm> {
        let mut all: Vec<Arm> = arms::names(self.arms).into_iter().map(Arm::of).collect();
        for Inner { part, arms: its, never, .. } in self.inner {
            let names = arms::names(its).into_iter().filter(|name| !never.contains(name));
            all.extend(names.map(|name| Arm { part, name }));
        }
        if !self.takes.is_empty() {
            all.extend([NEGATIVE_ZERO, LARGEST]);
        }
        all
    }

    fn read(&'static self, words: &[&[u8]]) -> Option<Box<dyn Asked>> {
        let number = |((role, _), word): ((Role, usize), &&[u8])| match role {
            Role::VertexNumber => words::digits(word, 2).map(|number| number as f64),
            _ => words::number(word),
        };
        if words.len() != self.width() {
            return None;
        }
        let numbers = roles::places(self.takes).zip(words).map(number).collect::<Option<_>>()?;
        Some(Box::new(Question { op: self, numbers }))
    }

    fn tries(&self) -> usize {
        2_000
    }

    fn draw(&'static self, rng: &mut Rng, wanted: Wanted) -> Box<dyn Asked> {
        let clean = match wanted {
            Wanted::Any => rng.percent(85),
            Wanted::Accepted => true,
            Wanted::Refused => false,
        };
        Box::new(Question { op: self, numbers: draw::numbers(rng, self.takes, clean) })
    }

    fn stored(&'static self, _: &mut Rng) -> Stored {
        stored::of(self)
    }

    fn says(&self) -> Says {
        match self.gives {
            Gives::Test(_) => Says::YesOrNo,
            Gives::Validity(_) => Says::Yes,
            _ => Says::Other,
        }
    }
}

impl Asked for Question {
    fn line(&self) -> String {
        self.op.written(&self.numbers)
    }

    fn answer(&self) -> Answer {
        let (refusal, value) = self.op.answer(&self.numbers);
        Answer { refusal: refusal.into(), words: value.words() }
    }

    fn refusal(&self) -> u8 {
        self.op.refusal(&self.numbers)
    }

    /// Those of the Rust function: a refused question reaches none.
    fn arms(&self) -> Vec<Arm> {
        match self.refusal() {
            ACCEPTED => self.op.reached(&self.numbers),
            _ => Vec::new(),
        }
    }

    fn numbers(&self) -> Option<Vec<f64>> {
        Some(self.numbers.clone())
    }

    fn is_named_difference(&self) -> bool {
        self.refusal() == ACCEPTED && (self.op.instead)(&self.numbers).is_some()
    }
}
