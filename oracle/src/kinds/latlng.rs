//! `latlng.`: the crate's `src/s2/latlng.rs`, of which only the record and its validity are ported.

use s2::s2::latlng::LatLng;

use crate::base::roles::Role;
use crate::kind::op::{kinds, op, Gives, Op};
use crate::kind::worked::{written, Worked};
use crate::kind::Family;

pub const FAMILY: Family = Family::new(|| kinds(OPS), || written(WORKED));

pub const OPS: &[Op] = &[op(
    "latlng.is_valid",
    &[Role::LatLng],
    Gives::Validity(|n| LatLng::from_radians(n[0], n[1]).is_valid()),
)];

const WORKED: Worked = &[
    ("latlng.is_valid PI/2 -PI", "0 1"),
    ("latlng.is_valid 3FF921FB54442D19 0.0", "3 0"),
    ("latlng.is_valid 0.0 400921FB54442D19", "3 0"),
    ("latlng.is_valid 0.0 7FF8000000000000", "3 0"),
];
