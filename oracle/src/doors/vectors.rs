//! The stored questions of the program `ask`: of each kind the special ones, every refusal and every arm
//! several times, random questions, the longest ones, and malformed lines of every kind.

use super::aim::{aimed, aims, written, Aim};
use super::malformed::spoilt;
use crate::base::rng::Rng;
use crate::kind::spoils::OF_ANY;
use crate::kind::{Asked, Kind, EACH_REFUSAL};
use crate::kinds;

/// The seed of the stored questions. It is fixed, so that writing them anew changes nothing.
const SEED: u64 = 1;

/// The stored file: newlines between the lines, none after the last.
pub fn bytes() -> Vec<u8> {
    lines().join(&b'\n')
}

/// All stored questions, without newlines.
fn lines() -> Vec<Vec<u8>> {
    let mut lines: Vec<Vec<u8>> = kinds::all().iter().flat_map(|kind| of(*kind)).collect();
    let last = kinds::FAMILIES.iter().flat_map(|family| family.stored_last);
    lines.extend(last.map(|line| line.as_bytes().to_vec()));
    lines.extend(long_lines());
    lines.push(LAST.to_vec());
    lines
}

/// A good line at the end, since that one lacks its newline.
const LAST: &[u8] = b"r1.union 0000000000000000 3FF0000000000000 3FF0000000000000 4000000000000000";

fn of(kind: &'static dyn Kind) -> Vec<Vec<u8>> {
    let mut rng = Rng::new(SEED, kind.name());
    let rng = &mut rng;
    let stored = kind.stored(rng);
    let mut asked = stored.special;
    let refusals = kind.refusals().into_iter().map(|number| (Aim::Refusal(number), EACH_REFUSAL));
    let arms = aims(kind).into_iter().map(|aim| (aim, stored.each_arm));
    for (aim, times) in refusals.chain(arms).chain([(Aim::Anything, stored.free)]) {
        asked.extend((0..times).map(|_| aimed(rng, kind, aim)));
    }
    asked.extend(stored.longest);
    let mut line = |asked: &Box<dyn Asked>| written(rng, kind, asked.as_ref());
    let mut lines: Vec<Vec<u8>> = asked.iter().map(&mut line).collect();
    let mut bad = stored.no_questions;
    // NUL and other control bytes are tried by `oracle/edges`, so that the stored file stays a text that
    // tools can show.
    let spoils = [OF_ANY, stored.spoils].concat().into_iter().filter(|(name, _)| !name.starts_with("a byte"));
    bad.extend(spoils.map(|spoil| spoilt(rng, kind, spoil)));
    lines.extend(bad.into_iter().filter(|line| kinds::read(line).is_none()));
    lines.extend(stored.last.iter().map(|asked| written(rng, kind, asked.as_ref())));
    lines
}

/// Long lines with hardly a space. The longest ones are tried by `oracle/edges`.
fn long_lines() -> [Vec<u8>; 2] {
    [vec![b'0'; 5_000], [&b"remainder "[..], &[b'0'; 4_096]].concat()]
}
