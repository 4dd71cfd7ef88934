//! A check of the oracle itself: answers and inputs worked by hand, and what each family of questions and each
//! program has tried of it.

use crate::base::check::{Check, Tried};
use crate::kinds;
use crate::programs;

/// Prints what is wrong; gives the number of faults.
pub fn run() -> usize {
    let questions = kinds::FAMILIES.iter().flat_map(|family| family.checks);
    let programs = programs::ALL.iter().flat_map(|program| program.checks);
    let all = [("worked answers", worked as fn() -> Tried)];
    all.iter().chain(questions).chain(programs).map(|check| one(*check)).sum()
}

fn one((what, run): Check) -> usize {
    let tried = run();
    println!("{} {what}: {} wrong", tried.cases, tried.wrong);
    tried.wrong
}

fn worked() -> Tried {
    let mut tried = Tried::default();
    for (asked, expected) in kinds::FAMILIES.iter().flat_map(|family| (family.worked)()) {
        tried.answers(&asked, &kinds::answer(asked.as_bytes()), &expected);
    }
    tried
}
