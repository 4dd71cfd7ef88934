//! Awkward inputs, each a whole standard input: both doors must answer them alike, and end.

use crate::base::rng::Rng;
use crate::kinds;

/// A name and the bytes of each input.
pub fn inputs() -> Vec<(String, Vec<u8>)> {
    let mut inputs = plain();
    for length in [199_999, 200_000, 200_001, 300_000] {
        inputs.push((format!("line-of-{length}"), long(b"", length, b"\nr1.empty\n")));
        inputs.push((format!("question-padded-to-{length}"), long(b"r1.empty ", length, b"\nr1.empty\n")));
        inputs.push((format!("last-line-of-{length}"), long(b"r1.empty\n", length + 9, b"")));
    }
    // A door that cuts a long line into parts would take the last part for a question.
    for length in [4_096, 8_192, 65_536, 131_072, 200_000, 200_001, 262_144, 1_000_000] {
        inputs.push((format!("question-after-{length}"), long(b"", length, b"r1.empty\nr1.empty\n")));
    }
    inputs.extend(kinds::FAMILIES.iter().flat_map(|family| (family.edges)()));
    inputs
}

fn plain() -> Vec<(String, Vec<u8>)> {
    let all: Vec<u8> = (0..=255).collect();
    let one_a_line: Vec<u8> = all.iter().flat_map(|byte| [*byte, b'\n']).collect();
    let in_a_question: Vec<u8> =
        all.iter().flat_map(|byte| [b"remainder 000000000000000", &[*byte][..], b"\n"].concat()).collect();
    let after_a_question: Vec<u8> =
        all.iter().flat_map(|byte| [b"r1.empty", &[*byte][..], b"\n"].concat()).collect();
    [
        ("empty", Vec::new()),
        ("newline", b"\n".to_vec()),
        ("empty-lines", vec![b'\n'; 1_000]),
        ("no-last-newline", b"r1.empty\nr1.empty".to_vec()),
        ("no-last-newline-malformed", b"r1.empty\nr1.empt".to_vec()),
        ("last-line-of-one-space", b"r1.empty\n ".to_vec()),
        ("carriage-returns", b"r1.empty\r\nr1.empty\r\n\r\nr1.empty\n\rr1.empty\n".to_vec()),
        ("spaces", b" r1.empty\nr1.empty \nr1.empty  \n  \n \nr1.empty\n".to_vec()),
        ("nul-bytes", b"r1.empty\0\n\0r1.empty\n\0\n\0\0\0\nr1.empty\n".to_vec()),
        ("all-bytes", all),
        ("each-byte-a-line", one_a_line),
        ("each-byte-a-digit", in_a_question),
        ("each-byte-after-a-name", after_a_question),
        ("random-bytes", noise(100_000, 1)),
        ("random-bytes-in-one-line", noise(300_000, 2).into_iter().filter(|byte| *byte != b'\n').collect()),
    ]
    .map(|(name, bytes)| (name.to_string(), bytes))
    .to_vec()
}

/// `start`, then letters up to `length` bytes in all, then `end`.
fn long(start: &[u8], length: usize, end: &[u8]) -> Vec<u8> {
    let mut bytes = start.to_vec();
    bytes.resize(length, b'x');
    bytes.extend(end);
    bytes
}

/// Random bytes.
fn noise(count: usize, seed: u64) -> Vec<u8> {
    let mut rng = Rng::new(seed, "noise");
    (0..count).map(|_| rng.bits() as u8).collect()
}
