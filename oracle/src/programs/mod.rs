//! The table of programs: a module for each. A program's module may use those of the questions.

mod boxes;
mod streams;

use crate::program::Program;

pub const ALL: &[Program] = &[streams::PROGRAM, boxes::PROGRAM];
