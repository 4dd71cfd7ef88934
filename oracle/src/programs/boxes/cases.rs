//! The cases of the program `boxes_cases`: kinds of input that the stored run of `boxes` leaves out. That
//! program reads them from its standard input, and hands each of them to the library function that `boxes`
//! calls. For each it writes a line `case LABEL` and then the answer, just as `boxes` would write it. What it
//! reads and what it is expected to write is printed from here: the cases in this order, each with the
//! reference's answer to its bytes.

use super::answer::answer;
use super::worked;
use crate::program::worked::Cases;

/// A label, and the name of a worked input (`worked.rs`).
const CASES: &[(&str, &str)] = &[
    ("no line", ""),
    ("an empty line", ";"),
    ("one box", "[1,2,3,4];"),
    ("the globe", "[-180,-90,180,90];"),
    ("no last newline", "[1,2,3,4];[0,3,5,5]"),
    ("nothing in common", "[0,0,1,1];[2,0,3,1];"),
    ("two meridians", "[-1,0,1,1];[1,0,-1,1];"),
    ("an empty line at the end", "[1,2,3,4];;"),
    ("line 2 is bad", "[1,2,3,4];[1,2,3];[181,2,3,4];"),
    ("line 2 is out of range", "[1,2,3,4];[181,2,3,4];[1,2,3];"),
    ("512 lines", "512 lines"),
    ("513 lines", "513 lines"),
    ("513 lines, the last one bad", "513 lines, the last one bad"),
    ("512 lines, the last one bad", "512 lines, the last one bad"),
];

/// All of one sort.
pub fn by_sort() -> Vec<Cases> {
    let worked = worked::all();
    let input = |name: &str| worked.iter().find(|input| input.0 == name).expect("a worked input").clone();
    let labelled = |(label, name): &(&str, &str)| {
        let (_, bytes, expected) = input(name);
        (label.to_string(), bytes, expected)
    };
    vec![Cases { sort: 'b', inputs: CASES.iter().map(labelled).collect(), answer }]
}
