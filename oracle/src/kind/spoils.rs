//! Ways to spoil a good line, so that it is no question: those of any line, of lists, and of bytes and whole
//! numbers. What spoils one line may leave another one as good as it was.

use crate::base::rng::Rng;
use crate::base::words::LONGEST_LIST;

/// A name, and the change.
pub type Spoil = (&'static str, fn(&mut Vec<u8>, &mut Rng));

pub const OF_ANY: &[Spoil] = &[
    ("empty line", |line, _| line.clear()),
    ("unknown name", |line, _| line.splice(0..0, *b"x").for_each(drop)),
    ("name in upper case", |line, _| line[0] = line[0].to_ascii_uppercase()),
    ("leading space", |line, _| line.insert(0, b' ')),
    ("trailing space", |line, _| line.push(b' ')),
    ("double space", |line, rng| at_a_space(line, rng, b"  ")),
    ("tab for a space", |line, rng| at_a_space(line, rng, b"\t")),
    ("bar for a space", |line, rng| at_a_space(line, rng, b" | ")),
    ("no space", |line, rng| at_a_space(line, rng, b"")),
    ("carriage return", |line, _| line.push(b'\r')),
    ("an operand too many", |line, _| line.extend(b" 3FF0000000000000")),
    ("an operand too few", |line, _| cut_last_word(line)),
    ("a digit too few", |line, _| line.truncate(line.len() - 1)),
    ("a digit too many", |line, _| line.push(b'0')),
    ("a bad digit", |line, rng| {
        // The bytes next to the digits in ASCII, often, and some that readers of numbers are known to take.
        let at = line.len() - 1 - rng.below(line.len().min(16));
        line[at] = rng.pick(b"/:@G`g/:@G`g/:@G`g-+._xX,OolI");
    }),
    ("a byte above 127", |line, rng| {
        let at = rng.below(line.len());
        line[at] = 128 + rng.below(128) as u8;
    }),
    ("a byte below 32", |line, rng| {
        let at = rng.below(line.len());
        line[at] = rng.pick(&[0, 1, 7, 9, 11, 12, 13, 27, 31]);
    }),
];

/// Of a line with a list.
pub const OF_LISTS: &[Spoil] = &[
    ("no bar", |line, _| at_the_bar(line, b"")),
    ("a bar without its space", |line, _| at_the_bar(line, b"|")),
    ("two bars", |line, _| at_the_bar(line, b" | |")),
    ("another sign for the bar", |line, rng| at_the_bar(line, &[b' ', rng.pick(b"/\\:;!Il1,-")])),
    ("no bar and no list", cut_at_the_bar),
    ("an operand missing before the bar", |line, _| {
        let mut words = line.split(|byte| *byte == b' ');
        let (name, rest): (_, Vec<&[u8]>) = (words.next().unwrap_or(b""), words.skip(1).collect());
        *line = [name, &rest.join(&b' ')].join(&b' ');
    }),
    ("an operand too many before the bar", |line, _| at_the_bar(line, b" 3FF0000000000000 |")),
    // One number more than the longest list of any question: what else was there may stay.
    ("a list too long", |line, _| line.extend(b" 3FF0000000000000".repeat(LONGEST_LIST + 1))),
];

/// Of a line with bytes in digits or with decimal numbers.
pub const OF_WORDS: &[Spoil] = &[
    ("a plus", |line, rng| at_a_word(line, rng, |word, _| word.insert(0, b'+'))),
    ("a needless zero", |line, rng| {
        at_a_word(line, rng, |word, _| word.insert(usize::from(word.first() == Some(&b'-')), b'0'))
    }),
    ("a lone minus", |line, rng| at_a_word(line, rng, |word, _| *word = b"-".to_vec())),
    ("two minuses", |line, rng| at_a_word(line, rng, |word, _| word.splice(0..0, *b"--").for_each(drop))),
    ("a minus after", |line, rng| at_a_word(line, rng, |word, _| word.push(b'-'))),
    ("a point", |line, rng| at_a_word(line, rng, |word, _| word.extend(b".0"))),
    ("an exponent", |line, rng| at_a_word(line, rng, |word, _| word.extend(b"e00"))),
    ("a sign between digits", |line, rng| {
        at_a_word(line, rng, |word, rng| word.insert(rng.below(word.len() + 1), rng.pick(b"_,.'-+:gG")))
    }),
    ("0x", |line, rng| at_a_word(line, rng, |word, _| word.splice(0..0, *b"0x").for_each(drop))),
    ("a digit of another base", |line, rng| at_a_word(line, rng, |word, _| word.push(b'A'))),
    ("a word lost", |line, rng| {
        let mut words: Vec<&[u8]> = line.split(|byte| *byte == b' ').collect();
        words.remove(1 + rng.below(words.len() - 1));
        *line = words.join(&b' ');
    }),
    ("a word twice", |line, rng| {
        at_a_word(line, rng, |word, _| *word = [&word[..], &word[..]].join(&b' '));
    }),
    ("a room too large", |line, rng| {
        at_a_word(line, rng, |word, rng| *word = rng.pick(&[&b"100"[..], b"999", b"1000", b"-1"]).to_vec())
    }),
];

/// Changes one word of the line after its name.
fn at_a_word(line: &mut Vec<u8>, rng: &mut Rng, change: fn(&mut Vec<u8>, &mut Rng)) {
    let mut words: Vec<Vec<u8>> = line.split(|byte| *byte == b' ').map(<[u8]>::to_vec).collect();
    let at = 1 + rng.below(words.len() - 1);
    change(&mut words[at], rng);
    *line = words.join(&b' ');
}

/// Puts this in place of the bar and the space before it.
fn at_the_bar(line: &mut Vec<u8>, with: &[u8]) {
    if let Some(bar) = line.iter().position(|byte| *byte == b'|') {
        line.splice(bar - 1..=bar, with.iter().copied());
    }
}

fn cut_at_the_bar(line: &mut Vec<u8>, _: &mut Rng) {
    if let Some(bar) = line.iter().position(|byte| *byte == b'|') {
        line.truncate(bar - 1);
    }
}

/// Replaces one space of the line, or its end where it has none.
fn at_a_space(line: &mut Vec<u8>, rng: &mut Rng, with: &[u8]) {
    let spaces: Vec<usize> = (0..line.len()).filter(|at| line[*at] == b' ').collect();
    if spaces.is_empty() {
        line.extend(b" ");
    } else {
        let at = rng.pick(&spaces);
        line.splice(at..at + 1, with.iter().copied());
    }
}

fn cut_last_word(line: &mut Vec<u8>) {
    match line.iter().rposition(|byte| *byte == b' ') {
        Some(at) => line.truncate(at),
        None => line.clear(),
    }
}
