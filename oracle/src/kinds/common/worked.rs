//! Worked answers for the common region.

use crate::kind::worked::Worked;

pub const WORKED: Worked = &[
    // document 01's boundary examples, with latitudes [0, 1]
    ("common 8 | 0.0 1.0 -1.0 1.0 0.0 1.0 1.0 -1.0", "0 2 0.0 1.0 -1.0 -1.0 0.0 1.0 1.0 1.0"),
    ("common 8 | 0.0 1.0 2.0 1.0 0.0 1.0 0.5 0.25", "0 2 0.0 1.0 0.5 1.0 0.0 1.0 2.0 0.25"),
    ("common 4 | 0.0 1.0 -PI PI 0.0 1.0 C00921FB54442D17 PI", "0 1 0.0 1.0 C00921FB54442D17 PI"),
    ("common 0 | 1.0 0.0 PI -PI", "0 0"),
    ("common 1 | 1.0 0.0 PI -PI", "0 0 42.0"),
    // room for one piece where two are due; one number short
    ("common 4 | 0.0 1.0 -1.0 1.0 0.0 1.0 1.0 -1.0", "6 0 42.0 42.0 42.0 42.0"),
    ("common 7 | 0.0 1.0 -1.0 1.0 0.0 1.0 1.0 -1.0", "6 0 42.0 42.0 42.0 42.0 42.0 42.0 42.0"),
    ("common 0 | 0.0 1.0 -1.0 1.0", "6 0"),
    // an empty list is the full rectangle, and what lies after the last piece stays
    ("common 4 |", "0 1 -PI/2 PI/2 -PI PI"),
    ("common 6 |", "0 1 -PI/2 PI/2 -PI PI 42.0 42.0"),
    ("common 3 |", "6 0 42.0 42.0 42.0"),
    // near the seam: a piece that begins there comes last; the gap above -PI joins or parts
    ("common 4 | 0.0 1.0 PI C00921FB54442D17 0.0 1.0 C00921FB54442D17 PI", "6 0 42.0 42.0 42.0 42.0"),
    (
        "common 8 | 0.0 1.0 PI C00921FB54442D17 0.0 1.0 C00921FB54442D17 PI",
        "0 2 0.0 1.0 C00921FB54442D17 C00921FB54442D17 0.0 1.0 PI PI",
    ),
    ("common 4 | 0.0 1.0 PI 1.0 0.0 1.0 2.0 0.5", "0 1 0.0 1.0 PI 0.5"),
    ("common 4 | 0.0 1.0 0.0 PI 0.0 1.0 PI 0.0", "6 0 42.0 42.0 42.0 42.0"),
    ("common 8 | 0.0 1.0 0.0 PI 0.0 1.0 PI 0.0", "0 2 0.0 1.0 0.0 0.0 0.0 1.0 PI PI"),
    // at a pole each longitude is a place by itself: nothing is joined there
    ("common 0 | PI/2 PI/2 0.0 1.0 PI/2 PI/2 2.0 3.0", "0 0"),
    ("common 4 | -PI/2 PI/2 -PI PI PI/2 PI/2 1.0 2.0", "0 1 PI/2 PI/2 1.0 2.0"),
    // zeros are read as one, and none is written negative
    ("common 4 | -0.0 1.0 -0.0 1.0 -1.0 -0.0 -1.0 -0.0", "0 1 0.0 0.0 0.0 0.0"),
    // order: the length, then entries from the first, 1, 21, 22, 23 in each, then the room; an entry's place is told
    ("common 0 | 2.0 2.0 0.0 1.0 7FF8000000000000", "5 0"),
    ("common 1 | 2.0 2.0 0.0 1.0 7FF8000000000000 0.0 0.0 1.0", "21 at 0 0 42.0"),
    ("common 1 | 2.0 2.0 0.0 7FF8000000000000 2.0 2.0 0.0 1.0", "1 at 0 0 42.0"),
    ("common 0 | 1.0 0.0 PI -PI 0.0 1.0 -PI 1.0", "22 at 1 0"),
    ("common 1 | 0.0 1.0 0.0 1.0 0.0 1.0 0.0 1.0 0.0 1.0 PI -PI", "23 at 2 0 42.0"),
    ("common 0 | 0.0 1.0 0.0 1.0 1.0 0.0 0.0 1.0 0.0 1.0 0.0 1.0", "23 at 1 0"),
    ("common 0 | 0.0 1.0 0.0 1.0 0.0 1.0 0.0 7FF0000000000000", "1 at 1 0"),
    // of several bad entries the first decides
    ("common 0 | 1.0 0.0 0.0 1.0 0.0 1.0 4.0 0.0 2.0 2.0 0.0 1.0", "23 at 0 0"),
    ("common 0 | 0.0 1.0 0.0 1.0 0.0 1.0 4.0 0.0 2.0 2.0 0.0 1.0", "22 at 1 0"),
    ("common 0 | 2.0 2.0 0.0 1.0 0.0 1.0 4.0 0.0 0.0 1.0 0.0 1.0", "21 at 0 0"),
    ("common 0 | 0.0 1.0 4.0 0.0 0.0 1.0 4.0 0.0", "22 at 0 0"),
    // of several faults of one entry the first that is tested
    ("common 0 | 0.0 1.0 0.0 1.0 2.0 2.0 4.0 0.0", "21 at 1 0"),
    ("common 0 | 0.0 1.0 0.0 1.0 0.0 2.0 PI -PI", "21 at 1 0"),
    ("common 0 | 0.0 1.0 0.0 1.0 1.0 0.0 4.0 0.0", "22 at 1 0"),
    ("common 0 | 0.0 1.0 0.0 1.0 2.0 1.0 4.0 0.0", "21 at 1 0"),
    ("common 0 | 0.0 1.0 0.0 1.0 2.0 1.0 4.0 7FF8000000000000", "1 at 1 0"),
    // what is no question
    ("common", "?"),
    ("common 4", "?"),
    ("common |", "?"),
    ("common 4 | ", "?"),
    ("common 04 |", "?"),
    ("common 2053 |", "?"),
    ("common +4 |", "?"),
    ("common 18446744073709551620 |", "?"),
    ("common 4 || 0.0", "?"),
];
