//! What is tried of the reference itself: reading against another way to take a text apart, writing against
//! reading, the fewest digits by leaving bytes out, and the radians at their ends.

use std::f64::consts::{FRAC_PI_2, PI};

use s2::s1::angle::{Angle, Deg};

use super::bounds::{degrees, rect_of, seam_read, Bounds, DEGREE, LIMITS, POLE, SEAM};
use super::question::read_text;
use super::{draw, text};
use crate::base::check::{drawn, Check, Tried};
use crate::base::rng::Rng;
use crate::base::roles::rect_is_valid;

pub const CHECKS: &[Check] = &[
    ("texts taken apart another way", || readings(500_000)),
    ("boxes written and read", || drawn("round trips", 500_000, round_trip)),
    ("boxes whose text cannot be shortened", || fewest(2_000)),
    ("boxes in radians", || radians(500_000)),
];

/// Holds something of a text.
fn hold(tried: &mut Tried, right: bool, what: &str, text: &[u8]) {
    tried.hold(right, what, || format!("'{}'", text.escape_ascii()));
}

/// Tries the reader on every short string of some signs for a number, on every good text with any two
/// bytes changed, and on drawn texts.
fn readings(drawn: usize) -> Tried {
    let mut tried = Tried::default();
    let mut read = |text: &[u8]| {
        tried.cases += 1;
        hold(&mut tried, text::array(text).ok() == taken_apart(text), "read otherwise", text);
    };
    for word in words(b"015-. e,", 5) {
        for place in 0..4 {
            let mut parts = [&b"0"[..]; 4];
            parts[place] = &word;
            read(&[b"[", &parts.join(&b',')[..], b"]"].concat());
        }
    }
    let signs = b"07-.,[] \t\n\x0Be+\0";
    for good in [&b"[0,1,2,3]"[..], b"[-0.5,1,2,34]", b" [1 , 2,3\r,4\n]\t"] {
        for (a, b) in (0..good.len()).flat_map(|a| (0..a).map(move |b| (a, b))) {
            for (x, y) in signs.iter().flat_map(|x| signs.iter().map(move |y| (*x, *y))) {
                let mut changed = good.to_vec();
                (changed[a], changed[b]) = (x, y);
                read(&changed);
            }
        }
    }
    let mut rng = Rng::new(1, "readings");
    (0..drawn).for_each(|_| read(&draw::text(&mut rng)));
    tried
}

/// All strings of these signs up to a length.
fn words(signs: &[u8], longest: usize) -> Vec<Vec<u8>> {
    let mut words = vec![Vec::new()];
    let mut last = 0;
    for _ in 0..longest {
        let longer: Vec<Vec<u8>> = words[last..]
            .iter()
            .flat_map(|word| signs.iter().map(move |sign| [&word[..], &[*sign]].concat()))
            .collect();
        last = words.len();
        words.extend(longer);
    }
    words
}

/// The numbers of a text, cut at its brackets, commas and points.
fn taken_apart(text: &[u8]) -> Option<Bounds> {
    let inner = trimmed(text).strip_prefix(b"[")?.strip_suffix(b"]")?;
    let numbers: Vec<i64> = inner.split(|byte| *byte == b',').map(number_apart).collect::<Option<_>>()?;
    numbers.try_into().ok()
}

fn trimmed(text: &[u8]) -> &[u8] {
    let is_space = |byte: &u8| b" \t\n\r".contains(byte);
    let start = text.iter().position(|byte| !is_space(byte)).unwrap_or(text.len());
    let end = text.iter().rposition(|byte| !is_space(byte)).map_or(start, |at| at + 1);
    &text[start..end]
}

fn number_apart(part: &[u8]) -> Option<i64> {
    let word = std::str::from_utf8(trimmed(part)).ok()?;
    let (sign, size) = word.strip_prefix('-').map_or((1, word), |size| (-1, size));
    let (whole, decimals) = size.split_once('.').unwrap_or((size, "0"));
    let digits_only = |part: &str| part.bytes().all(|byte| byte.is_ascii_digit());
    let is_good = digits_only(whole)
        && digits_only(decimals)
        && (1..=3).contains(&whole.len())
        && (1..=7).contains(&decimals.len())
        && (whole == "0" || !whole.starts_with('0'));
    let ten_millionths = || format!("{whole}{decimals:0<7}").parse::<i64>().expect("ten digits at most");
    is_good.then(|| sign * ten_millionths())
}

/// What is written reads as the same box; what is spelled otherwise does too. No text is longer than 51.
fn round_trip(rng: &mut Rng, tried: &mut Tried) {
    let bounds = draw::bounds(rng);
    let written = text::write(bounds).into_bytes();
    let spelled = draw::spelled(rng, bounds);
    let signs = written.iter().all(|byte| b"[,-.]0123456789".contains(byte));
    hold(tried, read_text(&written) == Ok(bounds), "written and read", &written);
    hold(tried, read_text(&spelled) == Ok(bounds), "spelled and read", &spelled);
    hold(tried, spelled.len() >= written.len(), "spelled shorter", &spelled);
    hold(tried, written.len() <= 51, "too long", &written);
    hold(tried, signs, "signs", &written);
}

/// No text that is what was written with bytes left out reads as the same box: of short texts with any
/// bytes left out, of others with any two, or any stretch.
fn fewest(count: usize) -> Tried {
    let mut any = false;
    drawn("fewest", count, |rng, tried| {
        any = !any;
        let bounds = if any { draw::bounds(rng) } else { short_box(rng) };
        let written = text::write(bounds).into_bytes();
        for shorter in with_bytes_left_out(&written) {
            hold(tried, read_text(&shorter) != Ok(bounds), "reads as the same box", &shorter);
        }
    })
}

/// A box with a short text.
fn short_box(rng: &mut Rng) -> Bounds {
    let mut number = || rng.pick(&[0, 0, DEGREE, DEGREE / 10, -DEGREE, 10 * DEGREE, 5 * DEGREE]);
    let (south, north) = (number(), number());
    seam_read([number(), south.min(north), number(), south.max(north)])
}

fn with_bytes_left_out(text: &[u8]) -> Vec<Vec<u8>> {
    let length = text.len();
    let left =
        |keeps: &dyn Fn(usize) -> bool| (0..length).filter(|at| keeps(*at)).map(|at| text[at]).collect();
    if length <= 13 {
        return (1..1_usize << length).map(|out| left(&|at| out >> at & 1 == 0)).collect();
    }
    let pairs = || (0..length).flat_map(|a| (0..=a).map(move |b| (b, a)));
    let two = pairs().map(|(a, b)| left(&|at| at != a && at != b));
    let stretches = pairs().map(|(a, b)| left(&|at| at < a || b < at));
    two.chain(stretches).collect()
}

/// 180 and 90 of either sign are exactly PI and PI/2, and no neighbour is; every box is a valid rectangle
/// whose sides are the crate's own angles, and neighbouring ten-millionths are different radians. The
/// crate's own `from_degrees` reads -180 as document 02 does, but for 180 with -180: that is EMPTY there.
fn radians(count: usize) -> Tried {
    let radians = |number: i64| Angle::from(Deg(degrees(number))).rad();
    let ends = [(SEAM, PI), (-SEAM, -PI), (POLE, FRAC_PI_2), (-POLE, -FRAC_PI_2), (0, 0.0)];
    let exact = ends.iter().all(|(number, exactly)| radians(*number).to_bits() == exactly.to_bits());
    drawn("radians", count, |rng, tried| {
        let bounds = draw::bounds(rng);
        let rect @ [lat_lo, lat_hi, ..] = rect_of(bounds);
        let text = text::write(bounds).into_bytes();
        hold(tried, exact, "the ends", &text);
        hold(tried, rect == [1, 3, 0, 2].map(|at| radians(bounds[at])), "the crate's angles", &text);
        hold(tried, rect_is_valid(rect), "not valid", &text);
        let named = draw::seam_named(rng, bounds);
        let by_the_crate =
            if (named[0], named[2]) == (SEAM, -SEAM) { [lat_lo, lat_hi, PI, -PI] } else { rect };
        hold(tried, rect_of(named) == by_the_crate, "the crate reads the seam", &text);
        for (number, limit) in bounds.into_iter().zip(LIMITS).filter(|(number, limit)| number < limit) {
            hold(tried, radians(number) < radians(number + 1), "no step", &text);
            hold(tried, radians(number) < radians(limit), "beyond the limit", &text);
        }
    })
}
