//! What `oracle/check` tries: many cases, of which the first few faults are shown and all are counted.

use std::fmt::Display;

use super::rng::Rng;

/// What is tried, for the eye, and how.
pub type Check = (&'static str, fn() -> Tried);

/// How many faults of a check are shown.
const SHOWN: usize = 10;

/// How many cases were tried, and how many statements of them were wrong.
#[derive(Default)]
pub struct Tried {
    pub cases: usize,
    pub wrong: usize,
}

impl Tried {
    /// Counts a statement that does not hold, and shows the first ones with the case at hand.
    pub fn hold<Case: Display>(&mut self, right: bool, what: &str, case: impl FnOnce() -> Case) {
        if !right {
            self.wrong += 1;
            if self.wrong <= SHOWN {
                println!("{what}: {}", case());
            }
        }
    }

    /// The same for statements by name, of numbers.
    pub fn hold_all(&mut self, statements: Statements, numbers: &[f64]) {
        for (name, holds) in statements {
            self.hold(holds, &format!("'{name}' does not hold for"), || super::words::asked(numbers));
        }
    }

    /// Counts a case whose answer must be this text.
    pub fn answers(&mut self, asked: &str, got: &str, expected: &str) {
        self.cases += 1;
        self.hold(got == expected, asked, || format!("\n  answers  {got:?}\n  expected {expected:?}"));
    }
}

/// Statements by name, and whether each holds for the case at hand.
pub type Statements = Vec<(&'static str, bool)>;

/// Tries so many cases that are drawn by a generator of this label.
pub fn drawn(label: &str, cases: usize, mut one: impl FnMut(&mut Rng, &mut Tried)) -> Tried {
    let mut rng = Rng::new(1, label);
    let mut tried = Tried { cases, wrong: 0 };
    (0..cases).for_each(|_| one(&mut rng, &mut tried));
    tried
}
