//! Inputs of a program whose answers are worked by hand.

use crate::base::check::Tried;

/// An input's name, its bytes, and what is expected.
pub type WorkedInput = (String, Vec<u8>, String);

/// Holds a program's reference to its worked inputs.
pub fn held(worked: &[WorkedInput], answer: fn(&[u8]) -> String) -> Tried {
    let mut tried = Tried::default();
    for (name, bytes, expected) in worked {
        tried.answers(&format!("input '{name}'"), &answer(bytes), expected);
    }
    tried
}

/// Cases of a program that names each one and answers it: all of one sort, by its letter.
pub struct Cases {
    pub sort: char,
    pub inputs: Vec<WorkedInput>,
    pub answer: fn(&[u8]) -> String,
}

impl Cases {
    /// What the program reads: for each case a line with its sort, how many bytes its label and itself have, and the
    /// label; then its bytes. The crate `cases` says the same.
    pub fn stdin(&self) -> Vec<u8> {
        let one = |(label, bytes, _): &WorkedInput| {
            assert!(label.len() < 100 && bytes.len() < 1_000_000, "the counts have two and six digits");
            let line = format!("{} {:02} {:06} {label}\n", self.sort, label.len(), bytes.len());
            [line.as_bytes(), bytes].concat()
        };
        self.inputs.iter().flat_map(one).collect()
    }

    /// And what it writes.
    pub fn stdout(&self) -> String {
        let one = |(label, bytes, _): &WorkedInput| format!("case {label}\n{}", (self.answer)(bytes));
        self.inputs.iter().map(one).collect()
    }
}
