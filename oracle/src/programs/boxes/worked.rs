//! Worked answers for the program `boxes`. A semicolon stands for a newline.

use super::answer::{MOST_BYTES, MOST_LINES};
use crate::program::worked::WorkedInput as Worked;

const SHORT: &[(&str, &str)] = &[
    // no line at all is bad text, and so is an empty line; the whole globe is a line like any other
    ("", "refused 8;"),
    (";", "refused 8 at line 1;"),
    (";;", "refused 8 at line 1;"),
    ("[1,2,3,4];;", "refused 8 at line 2;"),
    ("[-180,-90,180,90];", "[-180,-90,180,90];"),
    // the last line may lack its newline
    ("[1,2,3,4]", "[1,2,3,4];"),
    ("[1,2,3,4];", "[1,2,3,4];"),
    ("[1,2,3,4];[0,3,5,5]", "[1,3,3,4];"),
    (" [ 1.0 ,2,\t3,4 ]\r;[0,3,5,5]\r;", "[1,3,3,4];"),
    // nothing in common: in longitude, in latitude
    ("[0,0,1,1];[2,0,3,1];", ""),
    ("[0,0,1,1];[0,1.0000001,1,2];", ""),
    ("[0,0,1,1];[0,1,1,2];", "[0,1,1,1];"),
    // no degree is rounded
    (
        "[0.1,0.2,0.3,0.7];[0.1000001,0.2000001,0.2999999,0.6999999];",
        "[0.1000001,0.2000001,0.2999999,0.6999999];",
    ),
    // two pieces, in rising west; one that begins at the seam comes last
    ("[-1,0,1,1];[1,0,-1,1];", "[-1,0,-1,1];[1,0,1,1];"),
    ("[2,0,1,1];[0.5,0,0.25,1];", "[0.5,0,1,1];[2,0,0.25,1];"),
    ("[0,0,180,1];[180,0,0,1];", "[0,0,0,1];[180,0,180,1];"),
    ("[0,0,-180,1];[-180,0,0,1];", "[0,0,0,1];[180,0,180,1];"),
    ("[170,0,-170,1];[175,0,5,1];", "[175,0,-170,1];"),
    ("[180,0,-170,1];[-175,0,180,1];", "[-175,0,-170,1];[180,0,180,1];"),
    // the zones of examples/c/planner.c, whose predicates must have these boxes
    ("[-100,40,100,60];[80,45,-80,70];", "[-100,45,-80,60];[80,45,100,60];"),
    ("[170,10.1234567,-160,20];[175.0000001,5,180,15];", "[175.0000001,10.1234567,180,15];"),
    ("[170,10.1234567,-160,20];[150,15,-175,30];", "[170,15,-175,20];"),
    ("[-100,40,100,60];[0,-60,10,-40];", ""),
    ("[-100,40,100,60];[80,45,-80,120];", "refused 9 at line 2;"),
    // -180 with 180 alone is all round: the gap just beyond the seam counts
    ("[-180,0,180,1];", "[-180,0,180,1];"),
    ("[-180,0,180,1];[-179.9999999,0,180,1];", "[-179.9999999,0,180,1];"),
    ("[180,0,-179.9999999,1];[-179.9999999,0,180,1];", "[-179.9999999,0,-179.9999999,1];[180,0,180,1];"),
    ("[180,0,-180,1];", "[180,0,180,1];"),
    ("[-180,0,180,1];[0,0,-0.0000001,1];", "[0,0,-0.0000001,1];"),
    // the first faulty line decides
    ("[1,2,3,4];[1,2,3];[181,2,3,4];", "refused 8 at line 2;"),
    ("[1,2,3,4];[181,2,3,4];[1,2,3];", "refused 9 at line 2;"),
    ("[0,0,1,1];[2,0,3,1];[1,5,3,4];", "refused 9 at line 3;"),
    ("[1,2,3,4]\r\r;x", "refused 8 at line 2;"),
];

pub fn all() -> Vec<Worked> {
    let newlines = |text: &str| text.replace(';', "\n");
    let mut worked: Vec<Worked> = SHORT
        .iter()
        .map(|(input, answer)| (input.to_string(), newlines(input).into_bytes(), newlines(answer)))
        .collect();
    worked.extend(long().map(|(name, input, answer)| (name.to_string(), input, newlines(answer))));
    worked
}

/// As many lines and bytes as are taken, and one more.
fn long() -> [(&'static str, Vec<u8>, &'static str); 15] {
    let lines = |count: usize, last: &str| [b"[1,2,3,4]\n".repeat(count), last.as_bytes().to_vec()].concat();
    // Two boxes: the first padded, so that with the second and its newline there are so many bytes.
    let padded = |count: usize, first: &str, second: &str| {
        let spaces = " ".repeat(count - first.len() - second.len() - 2);
        format!("{first}{spaces}\n{second}\n").into_bytes()
    };
    let (good, bad) = ("[1,2,3,4]", "[1,2,3,4");
    [
        ("512 lines", lines(MOST_LINES, ""), "[1,2,3,4];"),
        ("512 lines, no newline", lines(MOST_LINES - 1, good), "[1,2,3,4];"),
        ("512 lines and an empty one", lines(MOST_LINES, "\n"), "refused 5;"),
        ("513 lines", lines(MOST_LINES + 1, ""), "refused 5;"),
        ("513 lines, the last one bad", lines(MOST_LINES, "x"), "refused 5;"),
        ("513 lines, the last one out of range", lines(MOST_LINES, "[1,5,3,4]\n"), "refused 5;"),
        ("512 lines, the last one bad", lines(MOST_LINES - 1, "x"), "refused 8 at line 512;"),
        ("513 lines, the one before bad", lines(MOST_LINES - 1, "[1,5,3,4]\nx\n"), "refused 9 at line 512;"),
        ("as many bytes", padded(MOST_BYTES, good, good), "[1,2,3,4];"),
        ("as many bytes, the last line bad", padded(MOST_BYTES, good, bad), "refused 8 at line 2;"),
        ("a byte too many", padded(MOST_BYTES + 1, good, good), "refused 5;"),
        ("a byte too many, the last line bad", padded(MOST_BYTES + 1, good, bad), "refused 5;"),
        ("a byte too many, the first line bad", padded(MOST_BYTES + 1, bad, good), "refused 5;"),
        ("bytes after as many", [padded(MOST_BYTES, good, bad), b"x".to_vec()].concat(), "refused 5;"),
        ("one line too long", [b" ".repeat(MOST_BYTES), b"[1,2,3,4]".to_vec()].concat(), "refused 5;"),
    ]
}
