//! The stored texts: every production at every number, spaces in every place, every fault at every position
//! of a few texts, forms that are no number or no array, limits, the seam with each partner, long texts.

use std::collections::BTreeSet;

use super::bounds::{DEGREE, LIMITS};
use super::damage::FORMS;
use super::draw::SPACES;

/// All texts, each once, but for the long ones none above a hundred bytes.
pub fn all() -> Vec<Vec<u8>> {
    let mut texts = [
        numbers(),
        spaces(),
        spaces_within(),
        forms(),
        arrays(),
        limits(),
        latitudes(),
        seams(),
        bad_before_out_of_range(),
        each_position(b"[-1.5,0,20,3]", b"0-.,[] +e\0\x80"),
        each_position(b" [ 10 ,-9.5 , 180 ,0.25\t] ", b"7. "),
        each_position(b"[-180,-90,180,90]", b"0,"),
        each_position(b"[-100.0000001,-0,0.1234567,89.9999999]", b"9"),
    ]
    .concat();
    let mut seen = BTreeSet::new();
    texts.retain(|text| seen.insert(text.clone()));
    texts.extend(long_texts());
    texts
}

/// An array of these four words.
fn array(words: [&str; 4]) -> Vec<u8> {
    format!("[{}]", words.join(",")).into_bytes()
}

/// An array with this word for one number. The others leave it free: south may be anything up to north.
fn array_with(place: usize, word: &str) -> Vec<u8> {
    let mut words = ["10", "-90", "20", "90"];
    words[place] = word;
    array(words)
}

/// Every production of a number in every place: 0, one, two and three digits, no point and each count of
/// decimals, with and without a minus; and zero with decimals.
fn numbers() -> Vec<Vec<u8>> {
    let decimals = |count: usize, turn: usize| match count {
        0 => String::new(),
        _ => format!(".{}", &["1234567", "0000001", "5000000", "9999999", "0000000"][turn % 5][..count]),
    };
    let mut texts = Vec::new();
    for place in 0..4 {
        texts.extend(["0.0000000", "-0.0", "-0.0000000"].map(|zero| array_with(place, zero)));
        let wholes: &[&str] = if place % 2 == 0 { &["0", "7", "42", "100"] } else { &["0", "5", "89"] };
        for (at, whole) in wholes.iter().enumerate() {
            for count in 0..=7 {
                let number = format!("{whole}{}", decimals(count, at + count));
                texts.extend([array_with(place, &number), array_with(place, &format!("-{number}"))]);
            }
        }
    }
    texts
}

/// Each kind of space in each place where spaces may stand, all four in each place, and in all places; what
/// is no space there.
fn spaces() -> Vec<Vec<u8>> {
    let parts = ["[", "1", ",", "-2", ",", "3.5", ",", "4", "]"].map(str::as_bytes);
    let with = |place: usize, spaces: &[u8]| {
        [parts[..place].concat(), spaces.to_vec(), parts[place..].concat()].concat()
    };
    let mut texts = Vec::new();
    for place in 0..=parts.len() {
        texts.extend(SPACES.map(|space| with(place, &[space])));
        texts.push(with(place, &SPACES));
    }
    texts.push([&SPACES[..], &parts.join(&SPACES[..]), &SPACES].concat());
    for other in
        [&b"\0"[..], b"\x0B", b"\x0C", b"\x1F", b"\x85", b"\xA0", b"\xC2\xA0", b"\xE2\x80\x83", b"\\n"]
    {
        texts.extend([0, 1, 4, 9].map(|place| with(place, other)));
    }
    texts
}

/// Each kind of space within a number, and beside one.
fn spaces_within() -> Vec<Vec<u8>> {
    let cut = ["- 1", "1 2", "1 .5", "1. 5", "1.5 5", "-1 ", " -1"];
    let space =
        |space: u8| move |word: &str| array_with(0, &word.replace(' ', &char::from(space).to_string()));
    SPACES.iter().flat_map(|byte| cut.map(space(*byte))).collect()
}

/// What is no number, each in two places in turn.
fn forms() -> Vec<Vec<u8>> {
    let in_turn = |(at, form): (usize, &&str)| [array_with(at % 4, form), array_with((at + 1) % 4, form)];
    FORMS.iter().enumerate().flat_map(in_turn).collect()
}

/// Whole texts: too few and too many numbers, other brackets, other signs, something before or after.
fn arrays() -> Vec<Vec<u8>> {
    let mut texts: Vec<Vec<u8>> = [
        "", " ", "    ", "\n", "\r\n\t ", "[", "]", "[]", "[ ]", "][", "[,,,]", "[1]", "[1,2]", "[1,2,3]",
        "[1,2,3,]", "[1,2,3,4]", "[1,2,3,4,5]", "[1,2,3,4,5,6]", "[1,2,3,4,]", "[,1,2,3,4]", "[1,,2,3,4]",
        "[1,2,3,,4]", "[1,2,3,4", "1,2,3,4]", "1,2,3,4", "[1,2,3,4]]", "[[1,2,3,4]", "[[1,2,3,4]]",
        "[[1,2],[3,4]]", "[[1],[2],[3],[4]]", "(1,2,3,4)", "{1,2,3,4}", "<1,2,3,4>", "]1,2,3,4[",
        "[1,2,3,4)", "[1;2;3;4]", "[1 2 3 4]", "[1:2:3:4]", "[1.2.3.4]", "[1\t2\t3\t4]", "[1,2;3,4]",
        "[1,2,3,4] 5", "[1,2,3,4]5", "[1,2,3,4],", "[1,2,3,4]x", "x[1,2,3,4]", "[1,2,3,4]\0", "\0[1,2,3,4]",
        "[1,2,3,4][1,2,3,4]", "[1,2,3,4]\n[1,2,3,4]", "\u{FEFF}[1,2,3,4]", "[1,2,3,4]\u{FEFF}", "\u{FEFF}",
        "\"[1,2,3,4]\"", "{\"bbox\":[1,2,3,4]}", "bbox:[1,2,3,4]", "// 1\n[1,2,3,4]", "[1,2,3,4]//",
        "[1,2,/**/3,4]", "[1,2,3,4]\u{1A}", "[1,2,3,4]\u{0C}", "null", "1", "-", "0",
    ]
    .map(|text| text.as_bytes().to_vec())
    .to_vec();
    // Texts of two bytes a sign, and signs above 127 that other tables have for brackets and digits.
    for wide in [[0, 1], [1, 0]] {
        let pair = |byte: &u8| if wide == [0, 1] { [0, *byte] } else { [*byte, 0] };
        texts.push(b"[1,2,3,4]".iter().flat_map(pair).collect());
    }
    texts.push(b"[1,2,3,4]".map(|byte| byte | 0x80).to_vec());
    texts.push("\u{FF3B}1,2,3,4\u{FF3D}".as_bytes().to_vec());
    texts
}

/// Each number at its limit, just within it and just beyond, of either sign, and far beyond.
fn limits() -> Vec<Vec<u8>> {
    let words = |limit: i64| {
        let degrees = limit / DEGREE;
        [
            format!("{degrees}"),
            format!("{degrees}.0000000"),
            format!("{}.9999999", degrees - 1),
            format!("{degrees}.0000001"),
            format!("{degrees}.1"),
            format!("{}", degrees + 1),
            "999.9999999".to_string(),
            "360".to_string(),
        ]
    };
    let mut texts = Vec::new();
    for (place, limit) in LIMITS.into_iter().enumerate() {
        for word in words(limit) {
            texts.extend([array_with(place, &word), array_with(place, &format!("-{word}"))]);
        }
    }
    // Two numbers out of range, and all four.
    texts.push(array(["181", "91", "20", "30"]));
    texts.push(array(["-181", "0", "181", "0"]));
    texts.push(array(["999", "-999", "999", "-999"]));
    texts
}

/// South and north alike, next to each other and the other way round.
fn latitudes() -> Vec<Vec<u8>> {
    let same = ["0", "-0", "1", "-1", "90", "-90", "0.0000001", "-89.9999999", "45.5"];
    let mut texts: Vec<Vec<u8>> = same.iter().map(|word| array(["1", word, "2", word])).collect();
    let pairs = [
        ("0", "-0"),
        ("-0", "0"),
        ("0", "0.0000001"),
        ("0.0000001", "0"),
        ("-0.0000001", "0"),
        ("0", "-0.0000001"),
        ("89.9999999", "90"),
        ("90", "89.9999999"),
        ("-90", "-89.9999999"),
        ("-89.9999999", "-90"),
        ("1", "0"),
        ("90", "-90"),
        ("-90", "90"),
        ("5.5", "5.4999999"),
        ("5.4999999", "5.5"),
        ("5.50", "5.5"),
        ("10", "9"),
    ];
    texts.extend(pairs.iter().map(|(south, north)| array(["1", south, "2", north])));
    texts
}

/// -180 in each place with each kind of partner.
fn seams() -> Vec<Vec<u8>> {
    let words = [
        "-180", "180", "-180.0", "180.0000000", "-179.9999999", "179.9999999", "0", "-0", "-0.0000001",
        "-180.0000001", "180.0000001",
    ];
    words.iter().flat_map(|west| words.iter().map(move |east| array([west, "-1", east, "1"]))).collect()
}

/// A number out of range, and bad text after it or before: 8 is decided on the whole text.
fn bad_before_out_of_range() -> Vec<Vec<u8>> {
    [
        "[181,0,0,0", "[181,0,0,0,0]", "[0,91,0,0]x", "[0,0,-181,0]]", "[0,0,0,-91.]", "[0,1,0,00]",
        "[1000,0,0,0]", "[180.00000001,0,0,0]", "[0,1,0,0", "[0,90.00000000,0,0]", "[999,999,999,999,]",
        "[0x1,91,0,0]", "[181]", "[181,91,181", "(181,0,0,0)", "[0,2,0,1]\0",
    ]
    .map(|text| text.as_bytes().to_vec())
    .to_vec()
}

/// At each position of a text: the byte left out, the text cut off, and each of these bytes before it and in
/// its place; and each of them at the end.
fn each_position(text: &[u8], wrong: &[u8]) -> Vec<Vec<u8>> {
    let mut texts = vec![text.to_vec()];
    for at in 0..=text.len() {
        let (before, after) = text.split_at(at);
        texts.push(before.to_vec());
        texts.extend(wrong.iter().map(|byte| [before, &[*byte], after].concat()));
        if let [_, rest @ ..] = after {
            texts.push([before, rest].concat());
            texts.extend(wrong.iter().map(|byte| [before, &[*byte], rest].concat()));
        }
    }
    texts
}

/// Twenty thousand spaces before the array, and a number with five thousand digits too many.
fn long_texts() -> [Vec<u8>; 2] {
    let spaces: Vec<u8> = (0..20_000).map(|at| SPACES[at % 4]).collect();
    [[&spaces[..], b"[1,2,3,4]"].concat(), array_with(2, &format!("0.{}", "0".repeat(5_000)))]
}
