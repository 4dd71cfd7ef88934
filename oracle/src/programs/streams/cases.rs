//! The cases of the program `common_cases`: streams at the edges of what the program `common` reads. That
//! program reads them from its standard input, and hands each of them to the library function that `common`
//! calls. For each it writes a line `case LABEL` and then the answer, just as `common` would write it. What it
//! reads and what it is expected to write is printed from here: the cases in this order, each with the
//! reference's answer to its bytes. Each answer is worked by hand too, and `oracle/check` holds the reference to
//! it. The last of them, `record NAME`, are handed to the function that reads one record: what they answer is
//! the rectangle that is handed out, written as a list of one piece is, or the refusal.
//!
//! A rectangle has the latitudes [0, 1] and the longitudes given, and "good" is a record of [-1, 1], unless
//! something else is said. Numbers of 16 digits are bit patterns. P is first, middle and last, in turn; the
//! marks, patterns and names follow in the order of their tables below.
//!
//! | Label | Stream |
//! |---|---|
//! | `empty` | no bytes |
//! | `records 512` | 512 good records |
//! | `records 513` | 513 good records |
//! | `records 513 short` | 512 good records, then the first 33 bytes of a good one |
//! | `records 513 mark` | 512 good records, then one with the mark 52 30 |
//! | `records 513 nan` | 512 good records, then one of four NaNs (7FF8000000000000) |
//! | `tail N`, N from 1 to 33 | a good record, then the first N bytes of a good one |
//! | `mark B0 B1`, nine marks | a good record, but with these two bytes for its mark |
//! | `refused N at E`, four N | 5, 20 or 512 good records, but the one at E, counted from zero, is BAD's of N; E is 0, 17 and 511, in turn |
//! | `wrong mark P` | five good records, but the first, third or last has the mark 52 30 |
//! | `bad N and M`, twelve pairs | five good records, but the second is BAD's of N and the fourth BAD's of M |
//! | `faults NUMBERS`, ten sets | FAULTS' of these numbers |
//! | `nan PATTERN`, three patterns | a good record, but lng.lo has this pattern |
//! | `infinity` | a good record, but lat.lo is 7FF0000000000000 |
//! | `reach` | a good record, but lat.lo is 5F30000000000000, which is 2^500 |
//! | `beyond` | a good record, but lat.lo is 5F30000000000001 |
//! | `zeros` | latitudes [-0, 0] with longitudes [-0, -0] |
//! | `zeros both` | longitudes [-0, 1], then [0, 1] |
//! | `latitudes apart` | latitudes [0, 0.25], then [0.5, 1], both with longitudes [-1, 1] |
//! | `longitudes NAME`, ten names | zones of LONGITUDES; only `empty` has other latitudes, [1, 0] |
//! | `first fault` | a good record, one with the mark 52 30, one with lat.lo 7FF8000000000000 |
//! | `first fault again` | the same with the last two changed round |
//! | `first fault tail` | a good record, BAD's of 22, the first 33 bytes of a good one |
//! | `record zeros` | latitudes [-0, 0] with longitudes [-0, -0] |
//! | `record zero west` | longitudes [-0, 1] |
//! | `record empty` | latitudes [1, -0] with longitudes [PI, -PI] |
//! | `record mark` | a good record, but with the mark 52 30 |
//! | `record short` | the first 33 bytes of a good record |
//! | `record and more` | a good record, then another |
//! | `record bad N`, four N | BAD's of N |
//! | `record faults NUMBERS`, ten sets | FAULTS' of these numbers |

use std::f64::consts::PI;

use super::answer::{answer, marked, record, record_read, RECORD};
use crate::base::roles::{Rect, BEYOND, EMPTY, NEXT_TO_SEAM};
use crate::kind::worked::words;
use crate::kinds::common::question::MOST_RECTS;
use crate::program::worked::{Cases, WorkedInput as Case};

const WRONG_MARK: [u8; 2] = [0x52, 0x30];

const WRONG_MARKS: &[[u8; 2]] = &[
    [0x00, 0x00],
    [0x51, 0x31],
    [0x53, 0x31],
    [0x52, 0x30],
    [0x52, 0x32],
    [0x31, 0x52],
    [0xFF, 0xFF],
    [0x52, 0x00],
    [0x00, 0x31],
];

const NANS: &[u64] = &[0x7FF8_0000_0000_0000, 0x7FF0_0000_0000_0001, 0xFFFF_FFFF_FFFF_FFFF];

/// A refusal number, and a good rectangle changed so that it is refused with it: lat.lo NaN, latitudes [0, 2],
/// longitudes [4, 0], longitudes EMPTY.
const BAD: &[(&str, Rect)] = &[
    ("1", [f64::from_bits(NANS[0]), 1.0, -1.0, 1.0]),
    ("21", [0.0, 2.0, -1.0, 1.0]),
    ("22", [0.0, 1.0, 4.0, 0.0]),
    ("23", [0.0, 1.0, PI, -PI]),
];

/// All that is wrong with a rectangle, as refusal numbers, and the rectangle. The first number is the answer. "South": its
/// lat.hi has a size over PI/2, but no such value, which is no fault.
const FAULTS: &[(&str, Rect)] = &[
    ("1 21", [0.0, BEYOND, -1.0, 1.0]),
    ("1 22", [0.0, 1.0, -1.0, BEYOND]),
    ("1 23", [1.0, -BEYOND, -1.0, 1.0]),
    ("1 21 22 23", [2.0, 1.0, 4.0, f64::from_bits(NANS[0])]),
    ("21 22", [0.0, 2.0, 4.0, 0.0]),
    ("21 23", [2.0, 1.0, -1.0, 1.0]),
    ("21 22 23", [2.0, 1.0, 4.0, 0.0]),
    ("22 23", [1.0, 0.0, 4.0, 0.0]),
    ("22 23 south", [0.0, -2.0, 4.0, 0.0]),
    ("23 south", [0.0, -2.0, -1.0, 1.0]),
];

/// A name, zones and the answer.
const LONGITUDES: &[(&str, &[[f64; 2]], &str)] = &[
    ("both ends", &[[-1.0, 1.0], [1.0, -1.0]], "pieces 2; 0.0 1.0 -1.0 -1.0; 0.0 1.0 1.0 1.0"),
    ("over the seam", &[[2.0, 1.0], [0.5, 0.25]], "pieces 2; 0.0 1.0 0.5 1.0; 0.0 1.0 2.0 0.25"),
    ("nearly full", &[[-PI, PI], [NEXT_TO_SEAM, PI]], "pieces 1; 0.0 1.0 C00921FB54442D17 PI"),
    ("full", &[[-PI, PI]], "pieces 1; 0.0 1.0 -PI PI"),
    ("empty", &[[PI, -PI]], "pieces 0"),
    ("two points", &[[0.0, 0.0], [PI, PI]], "pieces 0"),
    ("seam", &[[PI, PI]], "pieces 1; 0.0 1.0 PI PI"),
    ("wide", &[[1.0, -1.0], [1.0, -1.0]], "pieces 1; 0.0 1.0 1.0 -1.0"),
    ("grown", &[[0.0, 1.0]], "pieces 1; 0.0 1.0 0.0 1.0"),
    ("three zones", &[[-1.0, 1.0], [1.0, -1.0], [-2.0, 2.0]], "pieces 2; 0.0 1.0 -1.0 -1.0; 0.0 1.0 1.0 1.0"),
];

/// Streams, and records by themselves.
pub fn by_sort() -> Vec<Cases> {
    vec![
        Cases { sort: 's', inputs: all(), answer },
        Cases { sort: 'r', inputs: records(), answer: record_read },
    ]
}

pub fn all() -> Vec<Case> {
    let bad = [bad_records(), wrong_marks(), two_bad(), faults(), numbers()].concat();
    [counts(), tails(), marks(), bad, zeros(), zones(), first_faults()].concat()
}

/// A label, the bytes of the stream, and its answer, worked by hand: a semicolon stands for a newline.
fn case(label: impl ToString, records: &[Vec<u8>], expected: &str) -> Case {
    let written = expected.split("; ").map(|line| words(line) + "\n").collect();
    (label.to_string(), records.concat(), written)
}

/// A rectangle of the latitudes [0, 1].
fn zone([lo, hi]: [f64; 2]) -> Rect {
    [0.0, 1.0, lo, hi]
}

fn good() -> Vec<u8> {
    record(zone([-1.0, 1.0]))
}

fn wrong_mark() -> Vec<u8> {
    marked(WRONG_MARK, zone([-1.0, 1.0]))
}

/// A good record, but one number of this pattern.
fn with(place: usize, bits: u64) -> Vec<u8> {
    let mut rect = zone([-1.0, 1.0]);
    rect[place] = f64::from_bits(bits);
    record(rect)
}

fn nan() -> Vec<u8> {
    with(0, NANS[0])
}

fn counts() -> Vec<Case> {
    let most = good().repeat(MOST_RECTS);
    let and = |last: Vec<u8>| [most.clone(), last];
    vec![
        case("empty", &[], "pieces 1; -PI/2 PI/2 -PI PI"),
        case("records 512", std::slice::from_ref(&most), "pieces 1; 0.0 1.0 -1.0 1.0"),
        case("records 513", &and(good()), "refused 5"),
        case("records 513 short", &and(good()[..RECORD - 1].to_vec()), "refused 7"),
        case("records 513 mark", &and(wrong_mark()), "refused 7"),
        case("records 513 nan", &and(record([f64::from_bits(NANS[0]); 4])), "refused 5"),
    ]
}

fn tails() -> Vec<Case> {
    let tail = |count: usize| case(format!("tail {count}"), &[good(), good()[..count].to_vec()], "refused 7");
    (1..RECORD).map(tail).collect()
}

fn marks() -> Vec<Case> {
    let label = |mark: &[u8; 2]| format!("mark {:02X} {:02X}", mark[0], mark[1]);
    let one = |mark: &[u8; 2]| case(label(mark), &[marked(*mark, zone([-1.0, 1.0]))], "refused 7");
    WRONG_MARKS.iter().map(one).collect()
}

/// So many good records, but some others, each at its place.
fn good_but(count: usize, others: &[(usize, Vec<u8>)]) -> Vec<Vec<u8>> {
    let mut records = vec![good(); count];
    others.iter().for_each(|(at, other)| records[*at] = other.clone());
    records
}

fn bad_records() -> Vec<Case> {
    let mut cases = Vec::new();
    for (number, rect) in BAD {
        for (count, at) in [(5, 0), (20, 17), (MOST_RECTS, MOST_RECTS - 1)] {
            let refused = format!("refused {number} at {at}");
            cases.push(case(&refused, &good_but(count, &[(at, record(*rect))]), &refused));
        }
    }
    cases
}

fn wrong_marks() -> Vec<Case> {
    let one =
        |(name, at)| case(format!("wrong mark {name}"), &good_but(5, &[(at, wrong_mark())]), "refused 7");
    [("first", 0), ("middle", 2), ("last", 4)].map(one).to_vec()
}

/// Of two bad records the first decides, whichever number is the smaller.
fn two_bad() -> Vec<Case> {
    let mut cases = Vec::new();
    for (one, first) in BAD {
        for (other, second) in BAD.iter().filter(|(other, _)| other != one) {
            let records = good_but(5, &[(1, record(*first)), (3, record(*second))]);
            cases.push(case(format!("bad {one} and {other}"), &records, &format!("refused {one} at 1")));
        }
    }
    cases
}

/// The number that all that is wrong with a rectangle is refused with.
fn first_of(numbers: &str) -> &str {
    numbers.split(' ').next().unwrap_or(numbers)
}

fn faults() -> Vec<Case> {
    let refused = |numbers: &str| format!("refused {} at 0", first_of(numbers));
    let one = |(numbers, rect): &(&str, Rect)| {
        case(format!("faults {numbers}"), &[record(*rect)], &refused(numbers))
    };
    FAULTS.iter().map(one).collect()
}

fn numbers() -> Vec<Case> {
    let nan = |bits: &u64| case(format!("nan {bits:016X}"), &[with(2, *bits)], "refused 1 at 0");
    let mut cases: Vec<Case> = NANS.iter().map(nan).collect();
    cases.extend([
        case("infinity", &[with(0, 0x7FF0_0000_0000_0000)], "refused 1 at 0"),
        case("reach", &[with(0, 0x5F30_0000_0000_0000)], "refused 21 at 0"),
        case("beyond", &[with(0, 0x5F30_0000_0000_0001)], "refused 1 at 0"),
    ]);
    cases
}

fn zeros() -> Vec<Case> {
    let both = [record(zone([-0.0, 1.0])), record(zone([0.0, 1.0]))];
    vec![
        case("zeros", &[record([-0.0, 0.0, -0.0, -0.0])], "pieces 1; 0.0 0.0 0.0 0.0"),
        case("zeros both", &both, "pieces 1; 0.0 1.0 0.0 1.0"),
    ]
}

fn zones() -> Vec<Case> {
    let rect = |arc: &[f64; 2]| if *arc == EMPTY[2..] { EMPTY } else { zone(*arc) };
    let apart = [record([0.0, 0.25, -1.0, 1.0]), record([0.5, 1.0, -1.0, 1.0])];
    let mut cases = vec![case("latitudes apart", &apart, "pieces 0")];
    for (name, arcs, expected) in LONGITUDES {
        let records: Vec<Vec<u8>> = arcs.iter().map(|arc| record(rect(arc))).collect();
        cases.push(case(format!("longitudes {name}"), &records, expected));
    }
    cases
}

fn first_faults() -> Vec<Case> {
    vec![
        case("first fault", &[good(), wrong_mark(), nan()], "refused 7"),
        case("first fault again", &[good(), nan(), wrong_mark()], "refused 1 at 1"),
        case(
            "first fault tail",
            &[good(), record(BAD[2].1), good()[..RECORD - 1].to_vec()],
            "refused 22 at 1",
        ),
    ]
}

/// Records that are read by themselves: a refusal says no place.
pub fn records() -> Vec<Case> {
    let bad = |(number, rect): &(&str, Rect)| {
        case(format!("record bad {number}"), &[record(*rect)], &format!("refused {number}"))
    };
    let faulty = |(numbers, rect): &(&str, Rect)| {
        let refused = format!("refused {}", first_of(numbers));
        case(format!("record faults {numbers}"), &[record(*rect)], &refused)
    };
    let mut cases = vec![
        case("record zeros", &[record([-0.0, 0.0, -0.0, -0.0])], "pieces 1; 0.0 0.0 0.0 0.0"),
        case("record zero west", &[record(zone([-0.0, 1.0]))], "pieces 1; 0.0 1.0 0.0 1.0"),
        case("record empty", &[record([1.0, -0.0, PI, -PI])], "pieces 1; 1.0 0.0 PI -PI"),
        case("record mark", &[wrong_mark()], "refused 7"),
        case("record short", &[good()[..RECORD - 1].to_vec()], "refused 7"),
        case("record and more", &[good(), good()], "pieces 1; 0.0 1.0 -1.0 1.0"),
    ];
    cases.extend(BAD.iter().map(bad));
    cases.extend(FAULTS.iter().map(faulty));
    cases
}

/// Streams beside the cases: whose first fault is not what a list with the same numbers would be refused with,
/// and that end within a record.
pub fn beside() -> Vec<Case> {
    let many = |count: usize| good().repeat(count);
    vec![
        case("513 records, a NaN in the third", &[many(2), nan(), many(510)], "refused 1 at 2"),
        case("514 records, the last one with a wrong mark", &[many(513), wrong_mark()], "refused 5"),
        case("513 records and a byte", &[many(513), vec![0]], "refused 5"),
        case("512 records and a byte", &[many(512), vec![0x52]], "refused 7"),
        case("one byte of the mark", &[vec![0x52]], "refused 7"),
        case("the mark alone", &[vec![0x52, 0x31]], "refused 7"),
        case("a short record of NaNs", &[nan()[..33].to_vec()], "refused 7"),
        case("a short record with a wrong mark", &[wrong_mark()[..10].to_vec()], "refused 7"),
        case("a bad 512th record and one more", &[many(511), record(BAD[3].1), good()], "refused 23 at 511"),
        case("a bad record and a wrong mark", &[many(9), record(BAD[1].1), wrong_mark()], "refused 21 at 9"),
    ]
}
