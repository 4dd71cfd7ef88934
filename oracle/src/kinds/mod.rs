//! The table of questions: a module for each family of them, in port order. A module may use those above it and
//! none below.

pub mod bbox;
pub mod common;
mod growth;
mod latlng;
mod r1;
mod rect;
mod remainder;
mod s1;

use std::sync::LazyLock;

use crate::base::words::LONGEST_LINE;
use crate::kind::{Asked, Family, Kind};

pub const FAMILIES: &[Family] = &[
    remainder::FAMILY,
    r1::FAMILY,
    s1::FAMILY,
    latlng::FAMILY,
    rect::FAMILY,
    common::FAMILY,
    growth::FAMILY,
    bbox::FAMILY,
];

static ALL: LazyLock<Vec<&'static dyn Kind>> =
    LazyLock::new(|| FAMILIES.iter().flat_map(|family| (family.kinds)()).collect());

/// All kinds, in port order.
pub fn all() -> &'static [&'static dyn Kind] {
    &ALL
}

/// Reads a line without its newline. None: it is no question. Splitting at every space leaves an empty word at
/// a leading, trailing or double space, and an empty word is neither a name nor an operand.
pub fn read(line: &[u8]) -> Option<(&'static dyn Kind, Box<dyn Asked>)> {
    if line.len() > LONGEST_LINE {
        return None;
    }
    let words: Vec<&[u8]> = line.split(|byte| *byte == b' ').collect();
    let kind = all().iter().find(|kind| kind.name().as_bytes() == words[0])?;
    Some((*kind, kind.read(&words[1..])?))
}

/// What the oracle answers to a line, without newlines.
pub fn answer(line: &[u8]) -> String {
    read(line).map_or("?".to_string(), |(_, asked)| asked.answer().text())
}
