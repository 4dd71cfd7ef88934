//! What a program is to the rest of the oracle, and running it on drawn inputs: what it writes is held against
//! the reference. Each input is given as a file, and one in ten also byte by byte. Once its standard input
//! cannot be read at all: that must not pass for an empty input.

mod feed;
pub mod worked;

use std::collections::BTreeMap;
use std::fs::{self, File};
use std::io;
use std::process::{Command, Output, Stdio};

use crate::base::check::Check;
use crate::base::rng::Rng;
use worked::Cases;

/// What is known of a program.
pub struct Program {
    pub name: &'static str,
    /// the words of the doors that run it, and that answer in its place
    pub run_door: &'static str,
    pub answer_door: &'static str,
    /// what its inputs are called
    pub inputs: &'static str,
    /// the inputs that every run has
    pub known: fn() -> Vec<Vec<u8>>,
    /// draws the input at this place of a run
    pub draw: fn(&mut Rng, usize) -> Vec<u8>,
    /// what the program must write for an input, and where its standard input cannot be read
    pub answer: fn(&[u8]) -> String,
    pub unread: fn() -> String,
    /// the kinds of answers that a run must have among the expected ones, and the kind of an answer
    pub kinds: &'static [&'static str],
    pub kind: fn(&str) -> &'static str,
    /// the first bytes of an input, for the eye
    pub shown: fn(&[u8]) -> String,
    /// what the program NAME_cases is run on, a sort after the other
    pub cases: fn() -> Vec<Cases>,
    /// what `oracle/check` tries
    pub checks: &'static [Check],
}

/// How many differing inputs are shown, and how much of each and of its answers.
const SHOWN: usize = 3;
const SHOWN_BYTES: usize = 200;
const SHOWN_TEXT: usize = 600;

/// The program that is tried: its command, the seconds that it may take for an input, and a folder for
/// the inputs.
pub struct Tried<'a> {
    pub command: &'a str,
    pub limit: &'a str,
    pub folder: &'a str,
}

#[derive(Default)]
struct Counts {
    known: usize,
    drawn: usize,
    /// inputs that were fed byte by byte too
    fed: usize,
    runs: usize,
    differ: usize,
    by_kind: BTreeMap<&'static str, usize>,
}

/// Prints the comparison. The status is 1 on a difference or where the inputs fall short.
pub fn run(program: &Program, count: usize, seed: u64, tried: &Tried) -> io::Result<u8> {
    let mut rng = Rng::new(seed, program.inputs);
    let mut counts = Counts::default();
    let unread = tried.on_file(tried.folder)?;
    let what = Given { program, how: "as a folder, which cannot be read", bytes: b"" };
    tried.hold(&mut counts, &what, &(program.unread)(), unread)?;
    for bytes in (program.known)() {
        counts.known += 1;
        let what = Given { program, how: "as a file", bytes: &bytes };
        tried.hold(&mut counts, &what, &(program.answer)(&bytes), tried.on_bytes(&bytes)?)?;
    }
    for place in 0..count {
        let bytes = (program.draw)(&mut rng, place);
        let expected = (program.answer)(&bytes);
        *counts.by_kind.entry((program.kind)(&expected)).or_default() += 1;
        counts.drawn += 1;
        let what = Given { program, how: "as a file", bytes: &bytes };
        tried.hold(&mut counts, &what, &expected, tried.on_bytes(&bytes)?)?;
        // One in ten of the short ones, and some of the long ones.
        if place % 10 == 0 || [24, 99].contains(&(place % 250)) {
            counts.fed += 1;
            let given = feed::byte_by_byte(tried.program(), &bytes)?;
            tried.hold(&mut counts, &Given { how: "byte by byte", ..what }, &expected, given)?;
        }
    }
    Ok(counts.print(program, tried.command))
}

/// An input, and how the program gets it.
struct Given<'a> {
    program: &'a Program,
    how: &'a str,
    bytes: &'a [u8],
}

impl Tried<'_> {
    fn program(&self) -> Command {
        let mut program = Command::new("timeout");
        program.args([self.limit, "sh", "-c", self.command]);
        program
    }

    fn on_file(&self, path: &str) -> io::Result<Output> {
        self.program().stdin(File::open(path)?).stdout(Stdio::piped()).spawn()?.wait_with_output()
    }

    fn on_bytes(&self, bytes: &[u8]) -> io::Result<Output> {
        let path = format!("{}/input", self.folder);
        fs::write(&path, bytes)?;
        self.on_file(&path)
    }

    /// Counts a difference, in what is written or in the status, and shows the first ones. The input is kept,
    /// to be tried by hand.
    fn hold(&self, counts: &mut Counts, what: &Given, expected: &str, given: Output) -> io::Result<()> {
        counts.runs += 1;
        if given.status.code() == Some(status(expected).into()) && given.stdout == expected.as_bytes() {
            return Ok(());
        }
        counts.differ += 1;
        if counts.differ > SHOWN {
            return Ok(());
        }
        let kept = format!("{}/differing-{}", self.folder, counts.differ);
        fs::write(&kept, what.bytes)?;
        let number = counts.known + counts.drawn;
        println!("input {number}, given {}, {} bytes, kept in {kept}", what.how, what.bytes.len());
        let more = if what.bytes.len() > SHOWN_BYTES { " .." } else { "" };
        println!("  {}{more}", (what.program.shown)(&what.bytes[..what.bytes.len().min(SHOWN_BYTES)]));
        match given.status.code() {
            Some(code) if code == status(expected).into() => {}
            Some(124) => println!("  the program was still running after {} seconds", self.limit),
            Some(code) => println!("  the program ended with status {code}, and not {}", status(expected)),
            None => println!("  the program was ended by a signal"),
        }
        println!("  expected: {}", shown(expected.as_bytes()));
        println!("  got:      {}", shown(&given.stdout));
        Ok(())
    }
}

/// The status that `./run` ends with for an answer: 1 for a refusal.
pub fn status(answer: &str) -> u8 {
    u8::from(answer.starts_with("refused"))
}

/// Bytes as digits.
pub fn hex(bytes: &[u8]) -> String {
    let digits: Vec<String> = bytes.iter().map(|byte| format!("{byte:02X}")).collect();
    digits.join(" ")
}

/// Bytes as a text, all of it printable, its newlines too.
pub fn printable(bytes: &[u8]) -> String {
    bytes.iter().flat_map(|byte| byte.escape_ascii()).map(char::from).collect()
}

/// An answer for the eye, not too long.
fn shown(text: &[u8]) -> String {
    let more = if text.len() > SHOWN_TEXT { " .." } else { "" };
    printable(&text[..text.len().min(SHOWN_TEXT)]) + more
}

impl Counts {
    fn print(&self, program: &Program, command: &str) -> u8 {
        let inputs = program.inputs;
        let known =
            if self.known > 0 { format!(", {} known ones before", self.known) } else { String::new() };
        println!(
            "program: {command}   {} {inputs}, {} of them byte by byte too{known}",
            self.drawn, self.fed
        );
        println!("{} of {} runs equal, {} differ", self.runs - self.differ, self.runs, self.differ);
        let mut short = 0;
        for kind in program.kinds {
            let (have, least) = (self.by_kind.get(kind).copied().unwrap_or(0), (self.drawn / 200).max(1));
            let lack =
                if have < least { format!("  falls short: at least {least} wanted") } else { String::new() };
            short += usize::from(have < least);
            println!("    {have:>8}  {kind}{lack}");
        }
        u8::from(self.differ > 0 || short > 0)
    }
}
