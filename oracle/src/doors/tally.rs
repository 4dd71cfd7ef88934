//! Holding the answers of two doors to the same questions against each other, and counting what was
//! asked, so that an agreement means something.

use std::collections::BTreeMap;
use std::f64::consts::{FRAC_PI_2, PI};
use std::fs::File;
use std::io::{self, BufReader};

use crate::base::lines::Lines;
use crate::kind::{Arm, Asked, Kind, Says};
use crate::kinds;

/// How many differing questions of an operation are shown, the simplest ones.
const SHOWN: usize = 3;

/// The answer to what is no question. A judge that lacks an operation gives it to questions too.
const NO_ANSWER: &[u8] = b"?";

/// What was counted for one operation, or for the malformed lines.
#[derive(Default)]
struct Row {
    asked: usize,
    /// by the first word of the judge's answer: a refusal number, or "?"
    by_refusal: BTreeMap<String, usize>,
    yes: usize,
    no: usize,
    named: usize,
    /// questions that the judge has no answer to: they are not compared
    lacking: usize,
    differ: usize,
    arms: BTreeMap<Arm, usize>,
    /// differing questions with both answers, and how hard each is to read
    shown: Vec<(usize, String)>,
}

impl Row {
    fn count(&self, refusal: &str) -> usize {
        self.by_refusal.get(refusal).copied().unwrap_or(0)
    }

    /// Counts the judge's answer, and whether the other door says the same.
    fn add_answers(&mut self, asked: &[u8], judge: Option<&[u8]>, other: Option<&[u8]>, weight: usize) {
        let text = shown(judge);
        let mut words = text.split(' ');
        let refusal = words.next().unwrap_or("").to_string();
        if refusal == "0" {
            match words.next() {
                Some("1") => self.yes += 1,
                Some("0") => self.no += 1,
                _ => {}
            }
        }
        *self.by_refusal.entry(refusal).or_default() += 1;
        if judge != other || judge.is_none() {
            self.differ += 1;
            self.show(weight, || {
                format!("  {}\n    judge: {text}\n    other: {}", shown(Some(asked)), shown(other))
            });
        }
    }

    /// Keeps the simplest differing questions, each once, of equally simple ones the first.
    fn show(&mut self, weight: usize, text: impl FnOnce() -> String) {
        let at = self.shown.partition_point(|(other, _)| *other <= weight);
        if at == SHOWN {
            return;
        }
        let entry = (weight, text());
        if !self.shown.contains(&entry) {
            self.shown.insert(at, entry);
            self.shown.truncate(SHOWN);
        }
    }

    /// Counts what a question reaches.
    fn add_reached(&mut self, asked: &dyn Asked) {
        for arm in asked.arms() {
            *self.arms.entry(arm).or_default() += 1;
        }
        self.named += usize::from(asked.is_named_difference());
    }
}

/// How hard a question's numbers are to read: their digits that are not 0, and little for PI.
fn weight(numbers: &[f64]) -> usize {
    let nonzero = |bits: u64| (0..16).filter(|place| bits >> (4 * place) & 0xF != 0).count();
    let one = |x: &f64| match x.abs() {
        size if size == PI || size == FRAC_PI_2 => 2,
        _ => nonzero(x.to_bits()),
    };
    numbers.iter().map(one).sum()
}

/// A line for the eye: printable, and not too long.
fn shown(line: Option<&[u8]>) -> String {
    match line {
        None => "(no line)".to_string(),
        Some(line) => line.iter().take(300).flat_map(|byte| byte.escape_ascii()).map(char::from).collect(),
    }
}

/// What a row of the tally is about. None: malformed lines.
type About = Option<&'static dyn Kind>;

fn name(about: About) -> &'static str {
    about.map_or("(malformed)", |kind| kind.name())
}

/// The counts of a whole run: a row for each kind of question, in port order, and one for malformed lines.
pub struct Tally {
    rows: Vec<(About, Row)>,
    extra_lines: usize,
}

/// A file's lines. The longest line that a door may answer is far below this bound.
fn open(path: &str) -> io::Result<Lines<BufReader<File>>> {
    Ok(Lines::new(BufReader::with_capacity(1 << 16, File::open(path)?), 1 << 20))
}

impl Tally {
    fn new() -> Self {
        let about = kinds::all().iter().map(|kind| Some(*kind)).chain([None]);
        Tally { rows: about.map(|about| (about, Row::default())).collect(), extra_lines: 0 }
    }

    /// Reads the questions and both doors' answers, line by line.
    pub fn read(questions: &str, judge: &str, other: &str) -> io::Result<Tally> {
        let mut tally = Tally::new();
        let (mut questions, mut judge, mut other) = (open(questions)?, open(judge)?, open(other)?);
        while let Some(asked) = questions.next()? {
            tally.add(asked, judge.next()?, other.next()?);
        }
        for door in [&mut judge, &mut other] {
            while door.next()?.is_some() {
                tally.extra_lines += 1;
            }
        }
        Ok(tally)
    }

    fn add(&mut self, line: &[u8], judge: Option<&[u8]>, other: Option<&[u8]>) {
        let read = kinds::read(line);
        let row = self.row(read.as_ref().map(|(kind, _)| *kind));
        row.asked += 1;
        if judge == Some(NO_ANSWER) && read.is_some() {
            row.lacking += 1;
        } else {
            // Of a text, of whole numbers and of what is no question the shortest is the easiest to read.
            let numbers = read.as_ref().and_then(|(_, asked)| asked.numbers());
            row.add_answers(line, judge, other, numbers.map_or(line.len(), |numbers| weight(&numbers)));
        }
        if let Some((_, asked)) = read {
            row.add_reached(asked.as_ref());
        }
    }

    fn row(&mut self, about: About) -> &mut Row {
        let found = self.rows.iter_mut().find(|(other, _)| name(*other) == name(about));
        &mut found.expect("every kind has a row").1
    }

    /// The first words of answers that occur and are neither "0" nor "?", as numbers rise.
    fn refusals_seen(&self) -> Vec<String> {
        let mut seen: Vec<String> =
            self.rows.iter().flat_map(|row| row.1.by_refusal.keys().cloned()).collect();
        seen.sort_by_key(|word| (word.len(), word.clone()));
        seen.dedup();
        seen.retain(|number| number != "0" && number != "?");
        seen
    }

    /// Whether the judge lacks an answer to any question.
    fn any_lacking(&self) -> bool {
        self.rows.iter().any(|row| row.1.lacking > 0)
    }

    /// The table, a line an operation.
    pub fn print(&self, arms: bool) {
        let seen = self.refusals_seen();
        let titles: String = seen.iter().map(|number| format!("{:>9}", format!("ref. {number}"))).collect();
        let lacks = if self.any_lacking() { "   lacks" } else { "" };
        println!(
            "{:<30}{:>8}{:>10}{titles}{:>8}{:>8}{:>8}{lacks}{:>8}",
            "operation", "asked", "accepted", "yes", "no", "named", "differ"
        );
        for (about, row) in &self.rows {
            print_row(*about, row, &seen, self.any_lacking());
            if arms {
                row.arms.iter().for_each(|(arm, times)| println!("    {times:>8}  {arm}"));
            }
        }
    }

    /// The simplest differing questions with both answers.
    pub fn print_differing(&self) {
        for (about, row) in self.rows.iter().filter(|row| row.1.differ > 0) {
            println!("{}: {} differ; the simplest:", name(*about), row.differ);
            row.shown.iter().for_each(|(_, text)| println!("{text}"));
        }
        if self.extra_lines > 0 {
            println!("a door wrote {} lines after its last answer", self.extra_lines);
        }
    }

    pub fn differing(&self) -> usize {
        self.rows.iter().map(|row| row.1.differ).sum::<usize>() + self.extra_lines
    }

    /// What the questions lack, one line each.
    pub fn shortfalls(&self) -> Vec<String> {
        let named = |about: About, lack: String| format!("{}: {lack}", name(about));
        self.rows
            .iter()
            .flat_map(|(about, row)| lacks(*about, row).into_iter().map(move |lack| named(*about, lack)))
            .collect()
    }
}

fn print_row(about: About, row: &Row, seen: &[String], lacks: bool) {
    let name = name(about);
    let Some(kind) = about else {
        let (asked, no_question, differ) = (row.asked, row.count("?"), row.differ);
        println!("{name}: asked {asked}, answered ? {no_question}, differ {differ}");
        return;
    };
    let refused: String = seen.iter().map(|number| format!("{:>9}", row.count(number))).collect();
    let test = |count: usize| match kind.says() {
        Says::Other => "-".to_string(),
        Says::YesOrNo | Says::Yes => count.to_string(),
    };
    let lacking = if lacks { format!("{:>8}", row.lacking) } else { String::new() };
    println!(
        "{name:<30}{:>8}{:>10}{refused}{:>8}{:>8}{:>8}{lacking}{:>8}",
        row.asked,
        row.count("0"),
        test(row.yes),
        test(row.no),
        row.named,
        row.differ
    );
}

/// What the questions of one operation lack: too few accepted, a refusal, an arm, yes or no. Of an
/// operation that the judge lacks nothing is wanted.
fn lacks(about: About, row: &Row) -> Vec<String> {
    let mut lacks = Vec::new();
    let mut need = |what: String, have: usize, least: usize| {
        if have < least.max(1) {
            lacks.push(format!("{what}: {have}, at least {} wanted", least.max(1)));
        }
    };
    let Some(kind) = about else {
        need("answered ?".to_string(), row.count("?"), row.asked);
        return lacks;
    };
    if row.lacking == row.asked && row.asked > 0 {
        return Vec::new();
    }
    let accepted = row.count("0");
    need("accepted".to_string(), accepted, (row.asked * 60).div_ceil(100));
    for number in kind.refusals() {
        need(format!("refused with {number}"), row.count(&number.to_string()), row.asked / 200);
    }
    let arms = [kind.arms(), Vec::from_iter(kind.long_arm())].concat();
    for arm in &arms {
        need(format!("arm '{arm}'"), row.arms.get(arm).copied().unwrap_or(0), row.asked / 200);
    }
    if kind.says() == Says::YesOrNo {
        need("yes".to_string(), row.yes, accepted.div_ceil(10));
        need("no".to_string(), row.no, accepted.div_ceil(10));
    }
    let unlisted = row.arms.keys().filter(|arm| !arms.contains(arm));
    lacks.extend(unlisted.map(|arm| format!("arm '{arm}' is not in the list of arms")));
    lacks
}
