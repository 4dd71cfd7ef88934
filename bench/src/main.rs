//! The benchmark's one driver. Both sides of a row are called through a pointer, by the same loop, on the same inputs;
//! `compare` comes before anything is counted. `bench/run` calls it:
//!
//!     bench compare           how many answers differ; the status is 1 if any does
//!     bench count             runs each side of each row once, between two marks that the counter sees
//!     bench time              nanoseconds a call of each side of each row, a line each
//!     bench table COUNTS TIMES PROGRAM   the table, from files with one number a line (TIMES may be -)
//!     bench zones N           a stream of N records
//!     bench stream            the program `common` over the sweep
//!     bench spawn FILE PROGRAM ARGS..    microseconds of a run of a program with that input, the least of many

mod draw;
mod lists;
mod ops;
mod records;
mod rows;
mod stream;
mod sweep;
mod table;

use std::time::Instant;

use rows::Row;

fn rows() -> Vec<Row> {
    let mut rows = Vec::new();
    let g = &mut draw::Rng::new();
    lists::common(&mut rows, g);
    lists::growth(&mut rows, g);
    // A start of its own, so that the rows below keep the inputs that they had before this row.
    lists::running(&mut rows, &mut draw::Rng::new());
    lists::scan(&mut rows, g);
    ops::rects(&mut rows, g);
    ops::circles(&mut rows, g);
    ops::lines(&mut rows, g);
    ops::refusals(&mut rows, g);
    rows
}

fn compare(rows: &[Row]) -> bool {
    let mut all_same = true;
    for row in rows {
        let n = (row.differ)();
        if n != 0 {
            all_same = false;
            println!("{}, {}: {n} answers differ", row.group, row.name);
        }
    }
    if all_same {
        println!(
            "{} rows, {} calls: no answer differs",
            rows.len(),
            rows.iter().map(|r| r.calls).sum::<usize>()
        );
    }
    all_same
}

/// Between two marks, after a run that warms up.
fn count_one(run: &dyn Fn()) {
    run();
    let _ = std::os::unix::process::parent_id();
    run();
    let _ = std::os::unix::process::parent_id();
}

fn count(rows: &[Row]) {
    for row in rows {
        count_one(&row.ours);
        row.theirs.iter().for_each(|t| count_one(t));
        count_one(&row.nothing);
    }
}

/// Nanoseconds of so many runs.
fn sample(run: &dyn Fn(), runs: usize) -> f64 {
    let began = Instant::now();
    (0..runs).for_each(|_| run());
    began.elapsed().as_secs_f64() * 1e9
}

/// How many runs take at least two milliseconds.
fn enough(run: &dyn Fn()) -> usize {
    let mut runs = 1;
    while sample(run, runs) < 2e6 {
        runs *= 2;
    }
    runs
}

/// Nanoseconds a call, of each side the least of nine samples; the sides take turns, since a machine is not
/// always as fast.
fn time(rows: &[Row]) {
    for row in rows {
        let sides: Vec<&dyn Fn()> = std::iter::once(&*row.ours).chain(row.theirs.as_deref()).collect();
        let runs: Vec<usize> = sides.iter().map(|side| enough(*side)).collect();
        let mut least = vec![f64::INFINITY; sides.len()];
        for _ in 0..9 {
            for (i, side) in sides.iter().enumerate() {
                least[i] = least[i].min(sample(*side, runs[i]) / (runs[i] * row.calls) as f64);
            }
        }
        least.iter().for_each(|t| println!("{t}"));
    }
}

/// The least of 300 runs.
fn spawn(input: &str, program: &[String]) {
    let one = || {
        let file = std::fs::File::open(input).expect("the input can be read");
        let began = Instant::now();
        let mut child = std::process::Command::new(&program[0]);
        let done = child.args(&program[1..]).stdin(file).stdout(std::process::Stdio::null()).status();
        assert!(done.expect("the program runs").success());
        began.elapsed().as_secs_f64() * 1e6
    };
    println!("{}", (0..300).map(|_| one()).fold(f64::INFINITY, f64::min));
}

fn numbers(file: &str) -> Vec<f64> {
    let text = std::fs::read_to_string(file).expect("the numbers can be read");
    text.lines().map(|l| l.parse().expect("a number a line")).collect()
}

/// A time for each side of each row.
fn times_of(rows: &[Row], file: &str) -> Vec<(f64, Option<f64>)> {
    let mut left = numbers(file).into_iter();
    let mut next = move || left.next().expect("a time for each side of each row");
    rows.iter().map(|r| (next(), r.theirs.as_ref().map(|_| next()))).collect()
}

/// PROGRAM has the counts of the two whole programs and, where there are times, their times.
fn print_table(rows: &[Row], counts: &str, times: &str, program: &str) {
    let marks: Vec<u64> = numbers(counts).iter().map(|&x| x as u64).collect();
    let counted = table::per_call(rows, &marks);
    let timed = (times != "-").then(|| times_of(rows, times));
    let mut lines: Vec<table::Line> = rows
        .iter()
        .enumerate()
        .map(|(i, row)| table::Line {
            group: row.group,
            name: row.name.clone(),
            limit: row.limit,
            count: counted[i],
            time: timed.as_ref().map(|t| t[i]),
        })
        .collect();
    let p = numbers(program);
    lines.push(table::Line {
        group: "stream, the whole program",
        name: "512 records, a gap each, shuffled, 512 pieces".to_string(),
        limit: None,
        count: (p[0], Some(p[1])),
        time: (p.len() > 2).then(|| (1000.0 * p[2], Some(1000.0 * p[3]))),
    });
    table::print_limits(&lines);
    table::print(&lines);
}

fn main() {
    let words: Vec<String> = std::env::args().skip(1).collect();
    let word = |i: usize| words.get(i).map_or("", |w| w.as_str());
    match word(0) {
        "compare" => std::process::exit(!compare(&rows()) as i32),
        "count" => count(&rows()),
        "time" => time(&rows()),
        "table" => print_table(&rows(), word(1), word(2), word(3)),
        "zones" => stream::write(word(1).parse().expect("how many records")),
        "stream" => stream::run(),
        "spawn" => spawn(word(1), &words[2..]),
        _ => {
            eprintln!("bench: compare, count, time, table, zones, stream or spawn");
            std::process::exit(2);
        }
    }
}
