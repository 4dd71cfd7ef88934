//! The oracle: the crate s2's own code behind the line protocol of `ask`, and the tools that compare
//! the two. The scripts in the folder above run it; README.md there says how.

mod base;
mod doors;
mod draw;
mod kind;
mod kinds;
mod program;
mod programs;

use std::io::{self, Read, Write};
use std::process::ExitCode;

use doors::{check, edges, plan, tally, vectors};
use kind::Run;
use program::{Program, Tried};

const USAGE: &str = "usage: oracle answer | questions COUNT SEED | tally [--arms] QUESTIONS JUDGE OTHER
       | run NAME COUNT SEED | judge NAME COUNT SEED ANSWERS
       | vectors | edges DIR | check | cases [PROGRAM] [--input]";

fn usage() -> io::Error {
    let doors = |program: &Program| {
        format!("\n       | {} | {} COUNT SEED COMMAND LIMIT DIR", program.answer_door, program.run_door)
    };
    io::Error::other(USAGE.to_string() + &programs::ALL.iter().map(doors).collect::<String>())
}

fn main() -> ExitCode {
    let words: Vec<String> = std::env::args().skip(1).collect();
    let words: Vec<&str> = words.iter().map(String::as_str).collect();
    match run(&words) {
        Ok(status) => ExitCode::from(status),
        // Whoever read the output has seen enough.
        Err(error) if error.kind() == io::ErrorKind::BrokenPipe => ExitCode::SUCCESS,
        Err(error) => {
            eprintln!("oracle: {error}");
            ExitCode::from(2)
        }
    }
}

fn run(words: &[&str]) -> io::Result<u8> {
    match words {
        ["answer"] => doors::answer(io::stdin().lock(), io::stdout().lock()).map(|_| 0),
        ["questions", count, seed] => questions(count, seed).map(|_| 0),
        ["tally", questions, judge, other] => tally(questions, judge, other, false),
        ["tally", "--arms", questions, judge, other] => tally(questions, judge, other, true),
        ["run", name, count, seed] => run_questions(name, count, seed).map(|_| 0),
        ["judge", name, count, seed, answers] => judge(name, count, seed, answers),
        ["vectors"] => io::stdout().write_all(&vectors::bytes()).map(|_| 0),
        ["edges", folder] => write_edges(folder).map(|_| 0),
        ["check"] => Ok(u8::from(check::run() > 0)),
        ["cases"] => cases(&programs::ALL[0]),
        ["cases", "--input"] => case_inputs(&programs::ALL[0]),
        ["cases", name] => cases(program(|program| program.name == *name)?),
        ["cases", name, "--input"] => case_inputs(program(|program| program.name == *name)?),
        [door] => program_answer(program(|program| program.answer_door == *door)?),
        [door, count, seed, command, limit, folder] => {
            let program = program(|program| program.run_door == *door)?;
            program::run(program, whole(count)? as usize, whole(seed)?, &Tried { command, limit, folder })
        }
        _ => Err(usage()),
    }
}

fn program(is_it: impl Fn(&Program) -> bool) -> io::Result<&'static Program> {
    programs::ALL.iter().find(|program| is_it(program)).ok_or_else(usage)
}

/// Writes what the program NAME_cases must write.
fn cases(program: &Program) -> io::Result<u8> {
    let text: String = (program.cases)().iter().map(|cases| cases.stdout()).collect();
    io::stdout().write_all(text.as_bytes()).map(|_| 0)
}

/// Writes what it reads.
fn case_inputs(program: &Program) -> io::Result<u8> {
    let bytes: Vec<u8> = (program.cases)().iter().flat_map(|cases| cases.stdin()).collect();
    io::stdout().write_all(&bytes).map(|_| 0)
}

/// Writes what the program writes for this standard input, and gives the status that `./run` ends with.
fn program_answer(program: &Program) -> io::Result<u8> {
    let mut bytes = Vec::new();
    let text = match io::stdin().lock().read_to_end(&mut bytes) {
        Ok(_) => (program.answer)(&bytes),
        Err(_) => (program.unread)(),
    };
    io::stdout().write_all(text.as_bytes())?;
    Ok(program::status(&text))
}

fn whole(word: &str) -> io::Result<u64> {
    word.parse().map_err(|_| io::Error::other(format!("'{word}' is no whole number")))
}

fn questions(count: &str, seed: &str) -> io::Result<()> {
    let (count, seed) = (whole(count)? as usize, whole(seed)?);
    put_lines(|put| plan::questions(count, seed, put))
}

/// Writes what is put as lines, and gives the first error.
fn put_lines(all: impl FnOnce(&mut dyn FnMut(&[u8]))) -> io::Result<()> {
    let mut output = io::BufWriter::with_capacity(1 << 16, io::stdout().lock());
    let mut result = Ok(());
    all(&mut |line| {
        if result.is_ok() {
            result = output.write_all(line).and_then(|_| output.write_all(b"\n"));
        }
    });
    result.and_then(|_| output.flush())
}

fn find_run(name: &str) -> io::Result<&'static Run> {
    let mut runs = kinds::FAMILIES.iter().flat_map(|family| family.runs);
    runs.find(|run| run.name == name).ok_or_else(usage)
}

fn run_questions(name: &str, count: &str, seed: &str) -> io::Result<()> {
    let (run, count, seed) = (find_run(name)?, whole(count)? as usize, whole(seed)?);
    put_lines(|put| (run.questions)(count, seed, &mut |line| put(line.as_bytes())))
}

/// Says what does not hold of these answers. The status is 1 where anything does not.
fn judge(name: &str, count: &str, seed: &str, answers: &str) -> io::Result<u8> {
    let (run, count, seed) = (find_run(name)?, whole(count)? as usize, whole(seed)?);
    let text = std::fs::read_to_string(answers)?;
    let mut lines = text.lines().map(str::to_string);
    let tried = (run.judged)(count, seed, &mut || lines.next());
    println!("{} {name}: {} wrong", tried.cases, tried.wrong);
    Ok(u8::from(tried.wrong > 0))
}

/// Prints the comparison. The status is 1 on a difference or where the questions fall short.
fn tally(questions: &str, judge: &str, other: &str, arms: bool) -> io::Result<u8> {
    let tally = tally::Tally::read(questions, judge, other)?;
    tally.print(arms);
    tally.print_differing();
    let lacks = tally.shortfalls();
    lacks.iter().for_each(|lack| println!("falls short: {lack}"));
    println!("{} differ, {} shortfalls", tally.differing(), lacks.len());
    Ok(u8::from(tally.differing() > 0 || !lacks.is_empty()))
}

fn write_edges(folder: &str) -> io::Result<()> {
    for (name, bytes) in edges::inputs() {
        std::fs::write(format!("{folder}/{name}.in"), bytes)?;
    }
    Ok(())
}
