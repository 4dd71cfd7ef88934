//! What the scripts run. The doors know kinds of questions and programs by the tables alone.

pub mod aim;
pub mod check;
pub mod edges;
pub mod malformed;
pub mod plan;
pub mod tally;
pub mod vectors;

use std::io::{self, BufRead, Write};

use crate::base::lines::Lines;
use crate::base::words::LONGEST_LINE;
use crate::kinds;

/// The oracle's door: answers every line of `input` on `output`.
pub fn answer(input: impl BufRead, output: impl Write) -> io::Result<()> {
    let mut output = io::BufWriter::with_capacity(1 << 16, output);
    // One byte more than the longest question, so that a longer line is seen to be longer.
    let mut lines = Lines::new(input, LONGEST_LINE + 1);
    while let Some(line) = lines.next()? {
        writeln!(output, "{}", kinds::answer(line))?;
    }
    output.flush()
}
