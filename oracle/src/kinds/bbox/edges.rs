//! Awkward inputs of the questions of boxes, for `oracle/edges`.

use crate::base::words::{hex, LONGEST_LINE};

/// Line by line: texts and numbers about as long as a line may be, each byte in several
/// places of a text, each byte for a digit of an operand, each room and some more.
pub fn all() -> Vec<(String, Vec<u8>)> {
    let bytes = || 0..=255u8;
    let read = |text: &[u8]| format!("bbox.read {}\n", hex(text)).into_bytes();
    let array = b"[1,2,3,4]";
    let with = |at: usize, byte: u8| [read(&put(array, at, byte)), read(&insert(array, at, byte))].concat();
    let places = [0, 1, 2, 5, 8];
    let digit = |before: &str, after: &str| -> Vec<Vec<u8>> {
        bytes().map(|byte| [before.as_bytes(), &[byte], after.as_bytes(), b"\n"].concat()).collect()
    };
    let rooms = (0..=120).map(|room| format!("bbox.write {room} -1 -2 -3 4\n").into_bytes());
    [
        ("bbox-texts-about-the-longest", about_the_longest()),
        ("bbox-numbers-of-many-digits", many_digits()),
        ("bbox-each-byte", places.iter().flat_map(|at| bytes().map(|byte| with(*at, byte))).collect()),
        ("bbox-each-byte-a-digit", [digit("bbox.read 5B3", "5D"), digit("bbox.read ", "")].concat()),
        (
            "bbox-each-byte-a-number",
            [
                digit("bbox.write ", " 0 0 0 0"),
                digit("bbox.write 1", " 0 0 0 0"),
                digit("bbox.rect 0 0 0 ", ""),
                digit("bbox.rect -", " 0 0 0"),
                digit("bbox.rect 1", "2 0 0 0"),
            ]
            .concat(),
        ),
        ("bbox-each-room", rooms.collect()),
    ]
    .map(|(name, lines)| (name.to_string(), lines.concat()))
    .to_vec()
}

fn put(text: &[u8], at: usize, byte: u8) -> Vec<u8> {
    [&text[..at], &[byte], &text[at + 1..]].concat()
}

fn insert(text: &[u8], at: usize, byte: u8) -> Vec<u8> {
    [&text[..at], &[byte], &text[at..]].concat()
}

/// Texts with spaces before or after the array, and texts of nothing else, in lines of just as many bytes
/// as a question may have, and of one or two less or more: a line of an odd count of digits is no question.
fn about_the_longest() -> Vec<Vec<u8>> {
    let (array, space) = ("5B312C322C332C345D", "20");
    let most = LONGEST_LINE - "bbox.read ".len();
    let mut lines = Vec::new();
    for count in most - 2..=most + 2 {
        let spaces = &space.repeat(count)[..count - array.len()];
        lines.push(format!("bbox.read {spaces}{array}\n").into_bytes());
        lines.push(format!("bbox.read {array}{spaces}\n").into_bytes());
        lines.push(format!("bbox.read {}\n", &space.repeat(count)[..count]).into_bytes());
    }
    lines
}

/// Numbers of very many digits, up to a line that is too long: out of range, and some of a wrong form.
fn many_digits() -> Vec<Vec<u8>> {
    let mut lines = Vec::new();
    for count in [20, 100, 10_000, 199_983, 199_984, 199_985] {
        for digit in ["0", "9"] {
            let number = format!("1{}", digit.repeat(count - 1));
            lines.push(format!("bbox.rect {number} 0 0 0\n").into_bytes());
            lines.push(format!("bbox.rect 0 0 0 -{}\n", &number[1..]).into_bytes());
            lines.push(format!("bbox.write 9 0 {} 0 0\n", &number[..count - 4]).into_bytes());
        }
    }
    lines
}
