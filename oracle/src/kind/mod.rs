//! What a question is to the rest of the oracle: a kind, which reads, draws and stores questions of its name,
//! and a question of that kind, which answers itself. The modules under `kinds/` say this of each question,
//! and the doors know no more of it.

pub mod arms;
pub mod op;
pub mod spoils;
pub mod worked;

use crate::base::answer::Answer;
use crate::base::check::{Check, Tried};
use crate::base::rng::Rng;

pub use arms::Arm;
pub use spoils::Spoil;

/// A question's name and all that is known of it.
pub trait Kind: Sync {
    fn name(&self) -> &'static str;

    /// The refusal numbers that it can give, rising.
    fn refusals(&self) -> Vec<u8>;

    /// The arms that questions are aimed at, in turn.
    fn arms(&self) -> Vec<Arm>;

    /// Reads the words after the name. None: it is no question.
    fn read(&'static self, words: &[&[u8]]) -> Option<Box<dyn Asked>>;

    /// How many questions are drawn for an aim at most. The stored questions follow from it.
    fn tries(&self) -> usize {
        2_001
    }

    /// Draws a question, not a long one.
    fn draw(&'static self, rng: &mut Rng, wanted: Wanted) -> Box<dyn Asked>;

    /// What the stored questions have beside the drawn ones.
    fn stored(&'static self, rng: &mut Rng) -> Stored;

    /// What an accepted answer says.
    fn says(&self) -> Says {
        Says::Other
    }

    /// The arm of a long question, if there are any. They are few and costly: they are not aimed at, and have
    /// places of their own.
    fn long_arm(&self) -> Option<Arm> {
        None
    }

    /// Draws a long question, if there are any.
    fn draw_long(&'static self, rng: &mut Rng) -> Box<dyn Asked> {
        self.draw(rng, Wanted::Any)
    }

    /// Ways to spoil a question, beside those of any line.
    fn spoils(&self) -> &'static [Spoil] {
        &[]
    }
}

/// A question as it was read or drawn.
pub trait Asked {
    /// The line that asks it, without a newline, in upper-case digits.
    fn line(&self) -> String;

    fn answer(&self) -> Answer;

    fn refusal(&self) -> u8 {
        self.answer().refusal.number
    }

    /// The arms that it reaches.
    fn arms(&self) -> Vec<Arm>;

    /// All its doubles. None: it has a text or whole numbers instead.
    fn numbers(&self) -> Option<Vec<f64>> {
        None
    }

    /// Whether document 01 sets the crate's answer aside.
    fn is_named_difference(&self) -> bool {
        false
    }
}

/// What a drawn question is for. A kind may draw all alike.
#[derive(Clone, Copy, PartialEq)]
pub enum Wanted {
    Any,
    Accepted,
    Refused,
}

/// What an accepted answer says.
#[derive(Clone, Copy, PartialEq)]
pub enum Says {
    /// yes or no
    YesOrNo,
    /// always yes: a test of validity refuses what is not valid
    Yes,
    Other,
}

/// What is stored of a kind. Four questions aimed at each refusal come after the special ones.
#[derive(Default)]
pub struct Stored {
    /// questions that are special by their kind
    pub special: Vec<Box<dyn Asked>>,
    /// how many questions are aimed at each arm, and how many are drawn freely
    pub each_arm: usize,
    pub free: usize,
    pub longest: Vec<Box<dyn Asked>>,
    /// lines that are no question, and ways to spoil one, beside those of any line
    pub no_questions: Vec<Vec<u8>>,
    pub spoils: &'static [Spoil],
    /// what comes after all these
    pub last: Vec<Box<dyn Asked>>,
}

/// How many refusals of each number are stored.
pub const EACH_REFUSAL: usize = 4;

/// Any questions, each by itself.
pub fn boxed<T: Asked + 'static>(asked: impl IntoIterator<Item = T>) -> Vec<Box<dyn Asked>> {
    asked.into_iter().map(|asked| Box::new(asked) as Box<dyn Asked>).collect()
}

/// A list of more rectangles or points than this is a long one.
pub const SHORT: usize = 8;

pub const LONG_LIST: Arm = Arm::of("a long list");

/// What one module has: kinds of questions, and what is tried of them.
pub struct Family {
    pub kinds: fn() -> Vec<&'static dyn Kind>,
    /// questions and their answers, worked by hand
    pub worked: fn() -> Vec<(String, String)>,
    /// what `oracle/check` tries
    pub checks: &'static [Check],
    /// whole inputs of `oracle/edges`, by name
    pub edges: fn() -> Vec<(String, Vec<u8>)>,
    /// stored lines that come after those of all kinds
    pub stored_last: &'static [&'static str],
    pub runs: &'static [Run],
}

/// Questions that belong together, so many groups of a seed, and what must hold of a door's answers to them.
pub struct Run {
    pub name: &'static str,
    pub questions: fn(usize, u64, &mut dyn FnMut(&str)),
    /// the answers come one by one, in the order of the questions
    pub judged: fn(usize, u64, &mut dyn FnMut() -> Option<String>) -> Tried,
}

impl Family {
    /// A module that has questions and worked answers, and nothing else.
    pub const fn new(kinds: fn() -> Vec<&'static dyn Kind>, worked: fn() -> Vec<(String, String)>) -> Family {
        Family { kinds, worked, checks: &[], edges: Vec::new, stored_last: &[], runs: &[] }
    }
}
