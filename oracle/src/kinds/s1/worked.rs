//! Worked answers for the circle interval. F1 to F17 are natural-looking statements that are false for
//! the crate, and so for the port; each has the case that refutes it.

use crate::kind::worked::Worked;

pub const WORKED: Worked = &[
    ("s1.empty", "0 PI -PI"),
    ("s1.full", "0 -PI PI"),
    // document 01's boundary examples
    ("s1.intersection -1.0 1.0 1.0 -1.0", "0 -1.0 1.0"),
    ("s1.intersection -PI PI C00921FB54442D17 PI", "0 -PI PI"),
    ("s1.union -1.0 1.0 1.0 -1.0", "0 -PI PI"),
    ("s1.union 0.0 0.0 PI PI", "0 0.0 PI"),
    ("s1.union PI PI 0.0 0.0", "0 PI 0.0"),
    ("s1.add PI -PI -PI", "0 PI PI"),
    ("s1.add 0.0 1.0 4.0", "3 0.0 1.0"),
    ("s1.expanded 0.0 0.0 4.0", "0 -PI PI"),
    // `new` writes the seam as PI; the conversion from the line does not
    ("s1.new -PI 1.0", "0 PI 1.0"),
    ("s1.new 1.0 -PI", "0 1.0 PI"),
    ("s1.new -PI -PI", "0 PI PI"),
    ("s1.new -PI PI", "0 -PI PI"),
    ("s1.new PI -PI", "0 PI -PI"),
    ("s1.new 400921FB54442D19 0.0", "22 PI -PI"),
    ("s1.new 0.0 DF30000000000000", "22 PI -PI"),
    ("s1.new 0.0 DF30000000000001", "1 PI -PI"),
    ("s1.new 4.0 7FF8000000000000", "1 PI -PI"),
    ("r1.to_s1 -PI 1.0", "22 PI -PI"),
    ("r1.to_s1 1.0 -0.0", "0 1.0 0.0"),
    ("r1.to_s1 4.0 FFF0000000000000", "1 PI -PI"),
    ("s1.to_r1 PI -PI", "0 PI -PI"),
    ("s1.to_r1 -PI 1.0", "22 1.0 0.0"),
    // a validity test accepts what is valid, so its accepted answer is yes
    ("s1.is_valid 1.0 -1.0", "0 1"),
    ("s1.is_valid -PI PI", "0 1"),
    ("s1.is_valid -PI -PI", "22 0"),
    ("s1.is_valid 1.0 -PI", "22 0"),
    ("s1.is_valid 0.0 400921FB54442D19", "22 0"),
    ("s1.is_valid 0.0 5F30000000000001", "1 0"),
    // order: operands left to right, 1 before 22 in each, then points, then margins and errors
    ("s1.union 4.0 0.0 7FF8000000000000 0.0", "22 PI -PI"),
    ("s1.union 4.0 7FF8000000000000 4.0 0.0", "1 PI -PI"),
    ("s1.intersection 0.0 1.0 -PI 0.0", "22 PI -PI"),
    ("s1.contains -PI 0.0 7FF8000000000000", "22 0"),
    ("s1.contains 0.0 1.0 C00921FB54442D19", "3 0"),
    ("s1.expanded 4.0 0.0 7FF0000000000000", "22 PI -PI"),
    ("s1.expanded 0.0 1.0 7FF0000000000000", "4 PI -PI"),
    ("s1.approx_eq_by 0.0 1.0 0.0 -PI 7FF0000000000000", "22 0"),
    ("s1.approx_eq_by 0.0 1.0 0.0 1.0 5F30000000000001", "4 0"),
    ("s1.from_point_pair 0.0 4.0", "3 PI -PI"),
    ("s1.positive_distance 0.0 4.0", "3 0.0"),
    ("s1.center -PI 0.0", "22 0.0"),
    // growth: what a refusal hands back keeps its bits; an accepted answer has no negative zero
    ("s1.add -0.0 1.0 7FF8000000000000", "3 -0.0 1.0"),
    ("s1.add -0.0 1.0 0.5", "0 0.0 1.0"),
    ("s1.add -PI -0.0 7FF8000000000000", "22 PI -PI"),
    // the seam may be -PI in a number that is no end of an interval
    ("s1.positive_distance -PI PI", "0 401921FB54442D18"),
    ("s1.complement PI PI", "0 -PI PI"),
    ("s1.complement PI -PI", "0 -PI PI"),
    ("s1.complement -PI PI", "0 PI -PI"),
    // Hausdorff: contained is tested first
    ("s1.hausdorff PI -PI PI -PI", "0 0.0"),
    ("s1.hausdorff 0.0 1.0 PI -PI", "0 PI"),
    // F1: a length of -1 does not mean EMPTY
    ("s1.len PI -PI", "0 -1.0"),
    ("s1.len PI C00921FB54442D17", "0 -1.0"),
    ("s1.is_empty PI C00921FB54442D17", "0 0"),
    // F2: that interval, expanded, does not hold itself
    ("s1.expanded PI C00921FB54442D17 400999999999999A", "0 BFADE791555B2080 3FADE791555B20C0"),
    // F3: a shrunk interval may lie outside
    ("s1.expanded 4002E9E32C698EDA 3FD21ECC0C7F87E5 C000CEF67ED75E29", "0 BFFD1639FA8EDA58 BFFD1639FA8EDA59"),
    // F4: a center may be -PI
    ("s1.center 000012688B70E62B 0.0", "0 -PI"),
    // F5: distance 0 does not mean contained
    ("s1.hausdorff -PI PI C00921FB54442D17 PI", "0 0.0"),
    ("s1.contains_interval C00921FB54442D17 PI -PI PI", "0 0"),
    // F6: length 2 PI does not mean FULL
    ("s1.len 0.0 8000000000000001", "0 401921FB54442D18"),
    ("s1.is_full 0.0 8000000000000001", "0 0"),
    // F7: `fast_contains` takes -PI as it is, `contains` as the seam
    ("s1.fast_contains 0.0 PI -PI", "0 0"),
    ("s1.contains 0.0 PI -PI", "0 1"),
    // F9: `approx_eq` has `<` where its comment has `<=`, and fails across the seam
    ("s1.approx_eq_by PI -PI 0.0 1.0 0.5", "0 0"),
    ("s1.approx_eq PI PI C00921FB54442D17 C00921FB54442D17", "0 1"),
    ("s1.approx_eq PI PI C00921FB54442D16 C00921FB54442D16", "0 0"),
    ("s1.approx_eq_by PI -PI PI -PI BFD999999999999A", "0 1"),
    ("s1.approx_eq_by PI -PI PI -PI -0.5", "0 0"),
    // F10: EMPTY is inverted; the centers of EMPTY and FULL
    ("s1.is_inverted PI -PI", "0 1"),
    ("s1.center PI -PI", "0 PI"),
    ("s1.center -PI PI", "0 0.0"),
    // F12: a point pair is not EMPTY grown twice, nor symmetric at distance PI
    ("s1.from_point_pair C004EAB490913EB9 3FE0DD1B0ECBB97E", "0 C004EAB490913EB9 3FE0DD1B0ECBB97E"),
    ("s1.add C004EAB490913EB9 C004EAB490913EB9 3FE0DD1B0ECBB97E", "0 3FE0DD1B0ECBB97E C004EAB490913EB9"),
    ("s1.from_point_pair 0.0 PI", "0 0.0 PI"),
    ("s1.from_point_pair PI 0.0", "0 PI 0.0"),
    // F16: neither `union` nor growth nor a point pair is always the smallest interval
    ("s1.union PI PI 3CA0000000000000 3CA0000000000000", "0 PI 3CA0000000000000"),
    ("s1.add PI PI 3CA0000000000000", "0 PI 3CA0000000000000"),
    ("s1.from_point_pair PI 3CA0000000000000", "0 PI 3CA0000000000000"),
    // F17: a union's length may be below its operands': this one's is -1 (F1)
    ("s1.union C00921FB54442D17 C00921FB54442D17 PI PI", "0 PI C00921FB54442D17"),
    // F14: intersection is neither associative nor monotone, nor within the first
    ("s1.intersection 0.0 0.0 1.0 -1.0", "0 PI -PI"),
    ("s1.intersection 1.0 -1.0 -1.0 1.0", "0 -1.0 1.0"),
    ("s1.intersection 0.0 0.0 -1.0 1.0", "0 0.0 0.0"),
    ("s1.intersection 0.0 1.0 1.0 0.0", "0 0.0 1.0"),
    ("s1.intersection -PI PI 1.0 0.0", "0 1.0 0.0"),
    ("s1.intersection 0.0 -1.0 -1.0 0.0", "0 -1.0 0.0"),
    // F14: union is neither commutative nor associative nor monotone
    ("s1.union 0.0 0.0 1.0 -1.0", "0 0.0 -1.0"),
    ("s1.union 1.0 -1.0 0.0 0.0", "0 1.0 0.0"),
    ("s1.union 0.0 0.0 1.0 0.0", "0 1.0 0.0"),
    ("s1.union 0.0 1.0 1.0 0.0", "0 -PI PI"),
    ("s1.union 0.0 0.0 2.0 -1.0", "0 2.0 0.0"),
    ("s1.union 0.0 1.0 2.0 -1.0", "0 0.0 -1.0"),
];
