//! Lines that are no question, of every kind that the protocol names.

use crate::base::rng::Rng;
use crate::kind::spoils::OF_ANY;
use crate::kind::{Kind, Spoil, Wanted};
use crate::kinds;

/// A spoilt question. By chance it may be a question again.
pub fn spoilt(rng: &mut Rng, kind: &'static dyn Kind, (_, spoil): Spoil) -> Vec<u8> {
    let mut line = kind.draw(rng, Wanted::Accepted).line().into_bytes();
    spoil(&mut line, rng);
    line
}

/// Any line that is no question: of eight two of those that can be spoilt in ways of their own.
pub fn any(rng: &mut Rng) -> Vec<u8> {
    let (plain, own): (Vec<&dyn Kind>, Vec<&dyn Kind>) =
        kinds::all().iter().partition(|kind| kind.spoils().is_empty());
    loop {
        let kind = if rng.below(8) < 2 { rng.pick(&own) } else { rng.pick(&plain) };
        let spoil = rng.pick(&[OF_ANY, kind.spoils()].concat());
        let line = spoilt(rng, kind, spoil);
        if kinds::read(&line).is_none() {
            return line;
        }
    }
}
