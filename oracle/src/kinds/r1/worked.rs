//! Worked answers for the line interval.

use crate::kind::worked::Worked;

pub const WORKED: Worked = &[
    // the protocol's own example
    ("r1.union 0.0 1.0 1.0 2.0", "0 0.0 2.0"),
    ("r1.empty", "0 1.0 0.0"),
    // size 2^500 is in reach, the next double is not
    ("r1.new -2.0 5F30000000000000", "0 -2.0 5F30000000000000"),
    ("r1.new -2.0 5F30000000000001", "1 1.0 0.0"),
    ("r1.from_point 7ff8000000000000", "3 1.0 0.0"),
    ("r1.from_point_pair 2.0 1.0", "0 1.0 2.0"),
    // an accepted answer has no negative zero; a refused growth keeps its bits
    ("r1.add -0.0 -0.0 1.0", "0 0.0 1.0"),
    ("r1.add -0.0 -0.0 7FF0000000000000", "3 -0.0 -0.0"),
    ("r1.add -0.0 7FF0000000000000 7FF0000000000000", "1 1.0 0.0"),
    ("r1.expanded 1.0 -0.0 2.0", "0 1.0 0.0"),
    ("r1.expanded 0.0 1.0 FFF0000000000000", "4 1.0 0.0"),
    // its answer may leave reach, and is refused when it is fed back
    ("r1.expanded 0.0 5F30000000000000 5BE0000000000001", "0 DBE0000000000001 5F30000000000001"),
    ("r1.is_empty DBE0000000000001 5F30000000000001", "1 0"),
    ("r1.center 8000000000000001 0.0", "0 0.0"),
    ("r1.clamp_point 1.0 0.0 0.0", "0 1.0"),
    // a line's places have no gaps: nothing lies strictly inside these two neighbours (F13)
    ("r1.interior_intersects 0.0 0000000000000001 0.0 0000000000000001", "0 1"),
    // Hausdorff: an empty first gives 0, an empty second is Unbounded, a refused one is 0
    ("r1.hausdorff 1.0 0.0 1.0 0.0", "0 0.0"),
    ("r1.hausdorff 0.0 1.0 1.0 0.0", "0 U"),
    ("r1.hausdorff 0.0 1.0 FFF8000000000000 0.0", "1 0.0"),
    // the order of refusals, and a test
    ("r1.approx_eq_by 0.0 1.0 0.5 2.0 1.0", "0 1"),
    ("r1.approx_eq_by 0.0 1.0 7FF0000000000000 2.0 7FF0000000000000", "1 0"),
    ("r1.approx_eq_by 0.0 1.0 0.5 2.0 7FF0000000000000", "4 0"),
    ("r1.eq 2.0 1.0 1.0 0.0", "0 1"),
    ("R1.empty", "?"),
];
