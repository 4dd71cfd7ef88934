//! The questions of a comparison. Half are drawn freely; the others are aimed, so that every refusal,
//! every arm of the Rust function, yes and no are reached many times whatever the seed.

use super::aim::{aimed, aims, written, Aim};
use super::malformed;
use crate::base::rng::Rng;
use crate::kind::{Asked, Kind};
use crate::kinds;

/// The question at this place of the questions of its kind: one in 200 is long, if there are long ones, and of
/// eight one is aimed at a refusal and three at an arm or an answer.
fn question_at(rng: &mut Rng, kind: &'static dyn Kind, place: usize) -> Box<dyn Asked> {
    let (round, slot) = (place / 8, place % 8);
    let (refusals, aims) = (kind.refusals(), aims(kind));
    let aim = match slot {
        _ if place % 200 == 199 => return kind.draw_long(rng),
        0 if !refusals.is_empty() => Aim::Refusal(refusals[round % refusals.len()]),
        1..=3 if !aims.is_empty() => aims[(round * 3 + slot - 1) % aims.len()],
        _ => Aim::Anything,
    };
    aimed(rng, kind, aim)
}

/// Hands `count` questions of every kind to `put`, then malformed lines.
pub fn questions(count: usize, seed: u64, put: &mut dyn FnMut(&[u8])) {
    for kind in kinds::all() {
        let mut rng = Rng::new(seed, kind.name());
        for place in 0..count {
            let asked = question_at(&mut rng, *kind, place);
            put(&written(&mut rng, *kind, asked.as_ref()));
        }
    }
    let mut rng = Rng::new(seed, "malformed");
    for _ in 0..(count / 10).max(500) {
        put(&malformed::any(&mut rng));
    }
}
