//! The table of docs/BENCH.md, from counts and times.

use crate::rows::Row;

/// What one call costs, the loop taken off: with one decimal below ten.
fn amount(x: f64) -> String {
    if x < 9.95 {
        return format!("{x:.1}");
    }
    let mut digits = format!("{x:.0}");
    let mut at = digits.len();
    while at > 3 {
        at -= 3;
        digits.insert(at, ',');
    }
    digits
}

fn ratio(ours: f64, theirs: f64) -> String {
    if theirs < 0.05 {
        "-".to_string()
    } else {
        format!("{:.2}", ours / theirs)
    }
}

fn cells(ours: f64, theirs: Option<f64>) -> String {
    match theirs {
        Some(t) => format!("{} | {} | {}", amount(ours), amount(t), ratio(ours, t)),
        None => format!("{} | - | -", amount(ours)),
    }
}

/// Instructions a call of each side, from the counts between marks: two marks a side, the loop's own side last.
pub fn per_call(rows: &[Row], marks: &[u64]) -> Vec<(f64, Option<f64>)> {
    let mut left = marks.chunks_exact(2).map(|m| (m[1] - m[0]) as f64);
    let mut next = || left.next().expect("a count for each side of each row");
    rows.iter()
        .map(|row| {
            let ours = next();
            let theirs = row.theirs.as_ref().map(|_| next());
            let none = next();
            ((ours - none) / row.calls as f64, theirs.map(|t| (t - none) / row.calls as f64))
        })
        .collect()
}

/// A line of the table: instructions, and nanoseconds where there are times.
pub struct Line {
    pub group: &'static str,
    pub name: String,
    pub limit: Option<f64>,
    pub count: (f64, Option<f64>),
    pub time: Option<(f64, Option<f64>)>,
}

/// One table; the name of a group stands at its first line.
pub fn print(lines: &[Line]) {
    let timed = lines.iter().any(|l| l.time.is_some());
    print!("\n| | | library | beside | ratio | at most |");
    println!("{}", if timed { " library, ns | beside, ns | ratio |" } else { "" });
    println!("|---|---|---:|---:|---:|---:|{}", if timed { "---:|---:|---:|" } else { "" });
    let mut group = "";
    for line in lines {
        let first = if line.group == group { "" } else { line.group };
        group = line.group;
        let limit = line.limit.map_or(String::new(), |l| format!("{l:.1}"));
        print!("| {first} | {} | {} | {limit} |", line.name, cells(line.count.0, line.count.1));
        match line.time {
            Some((ours, theirs)) => println!(" {} |", cells(ours, theirs)),
            None => println!(),
        }
    }
}

/// Which ratios are above what they are to be at most: of instructions, and of times where there are times.
pub fn print_limits(lines: &[Line]) {
    print_above("instructions", lines.iter().map(|l| (l, Some(l.count))));
    if lines.iter().any(|l| l.time.is_some()) {
        print_above("times", lines.iter().map(|l| (l, l.time)));
    }
}

fn print_above<'a>(what: &str, costs: impl Iterator<Item = (&'a Line, Option<(f64, Option<f64>)>)>) {
    let limited = costs.filter_map(|(line, cost)| {
        let (ours, theirs) = cost?;
        Some((line, ours / theirs?, line.limit?))
    });
    let (within, above): (Vec<_>, Vec<_>) = limited.partition(|(_, ratio, limit)| ratio <= limit);
    println!("\nRatios of {what} that were to be at most so much: {} are, {} are not.", within.len(), above.len());
    for (line, ratio, limit) in above {
        println!("- {}, {}: {ratio:.2}, and not {limit:.1}.", line.group, line.name);
    }
}
