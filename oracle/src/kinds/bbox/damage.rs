//! Damaging a text in one place, so that it is nearly right.

use crate::base::rng::Rng;

/// Damages a text in one of many ways. It may by chance be a good one still.
pub fn damage(text: &mut Vec<u8>, rng: &mut Rng) {
    let (_, damage) = rng.pick(DAMAGES);
    damage(text, rng);
}

/// Bytes that stand in texts of numbers, or nearly do.
const NEARLY: &[u8] = b"0123456789--..,,[]  +eE_'\"{}()xX;:\t\n\r\x0B\x0C\0\x7F\x80\xA0\xEF\xFF";

type Damage = fn(&mut Vec<u8>, &mut Rng);

const DAMAGES: &[(&str, Damage)] = &[
    ("a byte lost", |text, rng| {
        if !text.is_empty() {
            text.remove(rng.below(text.len()));
        }
    }),
    ("a byte too many", |text, rng| text.insert(rng.below(text.len() + 1), rng.pick(NEARLY))),
    ("a byte another", |text, rng| {
        if !text.is_empty() {
            let at = rng.below(text.len());
            text[at] = rng.pick(NEARLY);
        }
    }),
    ("any byte another", |text, rng| {
        if !text.is_empty() {
            let at = rng.below(text.len());
            text[at] = rng.bits() as u8;
        }
    }),
    ("two bytes changed round", |text, rng| {
        if text.len() > 1 {
            let at = rng.below(text.len() - 1);
            text.swap(at, at + 1);
        }
    }),
    ("cut off", |text, rng| text.truncate(rng.below(text.len() + 1))),
    ("the beginning lost", |text, rng| text.drain(..rng.below(text.len() + 1)).for_each(drop)),
    ("a part twice", |text, rng| {
        let (a, b) = (rng.below(text.len() + 1), rng.below(text.len() + 1));
        let part = text[a.min(b)..a.max(b)].to_vec();
        text.splice(a..a, part);
    }),
    ("another number", |text, rng| {
        let at = text.iter().rposition(|byte| *byte == b']').unwrap_or(text.len());
        text.splice(at..at, rng.pick(&[&b",0"[..], b",", b",1.5", b",[0]", b" 0"]).iter().copied());
    }),
    ("a number lost", |text, rng| {
        let commas: Vec<usize> = (0..text.len()).filter(|at| text[*at] == b',').collect();
        if commas.len() > 1 {
            let at = rng.below(commas.len() - 1);
            text.drain(commas[at]..commas[at + 1]);
        }
    }),
    ("a number of a wrong form", |text, rng| {
        let form = rng.pick(FORMS).as_bytes();
        at_a_number(text, rng, form);
    }),
    ("a byte order mark", |text, _| text.splice(0..0, *b"\xEF\xBB\xBF").for_each(drop)),
    ("something after the array", |text, rng| {
        text.extend(rng.pick(&[&b"]"[..], b",", b"\0", b"0", b"[]", b" x", b"\x0C"]))
    }),
];

/// What is no number of an array, though it may look like one.
pub const FORMS: &[&str] = &[
    "", "-", ".", "-.", ".5", "-.5", "1.", "-1.", "0.", "00", "01", "-00", "-01", "007", "00.5", "1000",
    "0000", "1234", "-1000", "12345678901234567890", "1.00000000", "0.12345678", "-0.00000000", "1..5",
    "1.5.", "1.5.5", "--1", "-+1", "+1", "+0", "1-", "1e0", "1E0", "1e1", "0e0", "1e+1", "1E-1", "1.5e1",
    "-0e1", "e1", "0x1", "1x", "1f", "NaN", "nan", "Infinity", "-Infinity", "inf", "null", "true", "\"1\"",
    "'1'", "[1]", "(1)", "1 2", "- 1", "1 .5", "1. 5", "-\t1", "1_0", "1'0", "1;", "1/2", "\u{2212}1",
    "\u{660}", "1\u{B0}",
];

/// Puts this in place of a number of the array.
fn at_a_number(text: &mut Vec<u8>, rng: &mut Rng, form: &[u8]) {
    let is_part = |byte: &u8| byte.is_ascii_digit() || b"-.".contains(byte);
    let starts: Vec<usize> =
        (0..text.len()).filter(|at| is_part(&text[*at]) && (*at == 0 || !is_part(&text[at - 1]))).collect();
    if !starts.is_empty() {
        let start = rng.pick(&starts);
        let length = text[start..].iter().take_while(|byte| is_part(byte)).count();
        text.splice(start..start + length, form.iter().copied());
    }
}
