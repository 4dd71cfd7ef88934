//! The kinds of operands: what each is written with, and document 01's refusals of it. This is code of our
//! own. The crate has no refusals, and nothing here calls it.

use std::f64::consts::{FRAC_PI_2, PI};

use super::answer::{
    ACCEPTED, BAD_AMOUNT, BAD_CIRCLE, BAD_LATITUDE, BAD_POINT, HALF_EMPTY, OF_RECT, OUT_OF_REACH,
};

/// Numbers of a larger size are out of reach: 2^500.
pub const REACH: f64 = f64::from_bits(0x5F30_0000_0000_0000);

/// The next double above it.
pub const BEYOND: f64 = f64::from_bits(0x5F30_0000_0000_0001);

/// The largest size that `remainder` takes: 4 PI.
pub const REMAINDER_REACH: f64 = f64::from_bits(0x4029_21FB_5444_2D18);

/// T of document 01: the double 2 PI.
pub const TWO_PI: f64 = f64::from_bits(0x4019_21FB_5444_2D18);

/// The double just above -PI.
pub const NEXT_TO_SEAM: f64 = f64::from_bits(0xC009_21FB_5444_2D17);

/// Rust's PI is the double that document 01 calls PI, and FRAC_PI_2 is half of it.
const _: () = assert!(PI.to_bits() == 0x4009_21FB_5444_2D18 && 2.0 * FRAC_PI_2 == PI);

/// A circle interval: lo, hi.
pub type Arc = [f64; 2];

/// A rectangle: lat.lo, lat.hi, lng.lo, lng.hi.
pub type Rect = [f64; 4];

/// A point: latitude, longitude.
pub type Point = [f64; 2];

/// The standard empty rectangle, and the full one.
pub const EMPTY: Rect = [1.0, 0.0, PI, -PI];
pub const FULL: Rect = [-FRAC_PI_2, FRAC_PI_2, -PI, PI];

/// What an operand of a question stands for. It decides how the operand is read from the line, which
/// refusal it can cause, and how it is drawn.
#[derive(Clone, Copy, PartialEq)]
pub enum Role {
    /// a line interval: lo, hi
    Line,
    /// a point on the line
    LinePoint,
    /// a circle interval: lo, hi
    Circle,
    /// the two ends that circle `new` takes: -PI may stand for PI
    CircleEnds,
    /// a point on the circle
    CirclePoint,
    /// a rectangle: lat.lo, lat.hi, lng.lo, lng.hi
    Rect,
    /// a point of latitude and longitude
    LatLng,
    /// the number of a vertex, 0 to 255, in two digits
    VertexNumber,
    /// a margin, a size or an error
    Amount,
    /// a margin, a size or an error for latitude, and one for longitude
    AmountPair,
    /// the argument of `remainder`
    RemainderArgument,
}

impl Role {
    /// The largest size of each of its numbers, and the refusal numbers that it can cause, rising. (An empty
    /// latitude may have a hi far below -PI/2. We do not count that as its largest size.)
    fn facts(self) -> (&'static [f64], &'static [u8]) {
        match self {
            Role::Line => (&[REACH, REACH], &[OUT_OF_REACH]),
            Role::LinePoint => (&[REACH], &[BAD_POINT]),
            Role::Circle | Role::CircleEnds => (&[PI, PI], &[OUT_OF_REACH, BAD_CIRCLE]),
            Role::CirclePoint => (&[PI], &[BAD_POINT]),
            Role::Rect => (&[FRAC_PI_2, FRAC_PI_2, PI, PI], &OF_RECT),
            Role::LatLng => (&[FRAC_PI_2, PI], &[BAD_POINT]),
            Role::VertexNumber => (&[255.0], &[]),
            Role::Amount => (&[REACH], &[BAD_AMOUNT]),
            Role::AmountPair => (&[REACH, REACH], &[BAD_AMOUNT]),
            Role::RemainderArgument => (&[REMAINDER_REACH], &[BAD_AMOUNT]),
        }
    }

    /// The largest size of each of its numbers.
    pub fn largest(self) -> &'static [f64] {
        self.facts().0
    }

    /// How many numbers the operand is written with.
    pub fn width(self) -> usize {
        self.largest().len()
    }

    /// The number that this operand by itself is refused with, or 0.
    pub fn fault(self, n: &[f64]) -> u8 {
        let (largest, numbers) = self.facts();
        let all_small = || n.iter().zip(largest).all(|(x, most)| x.abs() <= *most);
        let is_valid = || match self {
            Role::Line => true,
            Role::Circle => circle_is_valid([n[0], n[1]]),
            _ => all_small(),
        };
        match numbers {
            [OUT_OF_REACH, ..] if !n.iter().all(|x| in_reach(*x)) => OUT_OF_REACH,
            _ if self == Role::Rect => why_not_valid([n[0], n[1], n[2], n[3]]).unwrap_or(ACCEPTED),
            [.., number] if !is_valid() => *number,
            _ => ACCEPTED,
        }
    }

    /// Document 01's order: intervals and rectangles first, then points, then margins, sizes and errors.
    fn turn(self) -> u8 {
        match self.facts().1 {
            [OUT_OF_REACH, ..] => 0,
            [BAD_POINT] => 1,
            _ => 2,
        }
    }
}

/// For each number of some operands: the role of its operand, and its place in that operand.
pub fn places(takes: &[Role]) -> impl Iterator<Item = (Role, usize)> + '_ {
    takes.iter().flat_map(|role| (0..role.width()).map(move |at| (*role, at)))
}

/// The refusal number of some operands: 0 if they are accepted. Within one turn they go left to right.
pub fn refusal(takes: &[Role], numbers: &[f64]) -> u8 {
    let mut found = (3, ACCEPTED);
    let mut rest = numbers;
    for role in takes {
        let (own, later) = rest.split_at(role.width());
        rest = later;
        let number = role.fault(own);
        if number != ACCEPTED && role.turn() < found.0 {
            found = (role.turn(), number);
        }
    }
    found.1
}

/// The refusal numbers that operands can cause, rising.
pub fn refusals(takes: &[Role]) -> Vec<u8> {
    let mut numbers: Vec<u8> = takes.iter().flat_map(|role| role.facts().1).copied().collect();
    numbers.sort();
    numbers.dedup();
    numbers
}

/// No NaN, and of a size that the port takes. (A comparison with a NaN is false.)
pub fn in_reach(x: f64) -> bool {
    x.abs() <= REACH
}

/// Both ends of size at most PI; lo is -PI only in FULL, hi is -PI only in EMPTY.
pub fn circle_is_valid([lo, hi]: Arc) -> bool {
    let seam_is_pi = (lo != -PI || hi == PI) && (hi != -PI || lo == PI);
    lo.abs() <= PI && hi.abs() <= PI && seam_is_pi
}

/// What document 02 tests a rectangle in reach for, in its order: the numbers, and whether each test finds something.
fn rect_tests([lat_lo, lat_hi, lng_lo, lng_hi]: Rect) -> [(u8, bool); 3] {
    // The size of lo, but the value of hi: an empty latitude may end far below -PI/2.
    let lat_in_range = lat_lo.abs() <= FRAC_PI_2 && lat_hi <= FRAC_PI_2;
    let lat_empty = lat_lo > lat_hi;
    let lng_empty = lng_lo == PI && lng_hi == -PI;
    [
        (BAD_LATITUDE, !lat_in_range),
        (BAD_CIRCLE, !circle_is_valid([lng_lo, lng_hi])),
        (HALF_EMPTY, lat_empty != lng_empty),
    ]
}

/// The number of the first test that finds something. None: the rectangle is valid.
fn why_not_valid(rect: Rect) -> Option<u8> {
    rect_tests(rect).into_iter().find(|(_, found)| *found).map(|(number, _)| number)
}

/// Size of lat.lo and value of lat.hi at most PI/2, circle valid, both parts empty or neither.
pub fn rect_is_valid(rect: Rect) -> bool {
    why_not_valid(rect).is_none()
}

/// An accepted answer has no negative zero.
pub fn plain(x: f64) -> f64 {
    if x == 0.0 {
        0.0
    } else {
        x
    }
}

/// A longitude with the seam by its one name: -PI is PI.
pub fn seam_as_pi(lng: f64) -> f64 {
    if lng == -PI {
        PI
    } else {
        lng
    }
}

pub fn is_negative_zero(x: f64) -> bool {
    x.to_bits() == (-0.0f64).to_bits()
}

/// The rectangles of a list of numbers.
pub fn rects(numbers: &[f64]) -> Vec<Rect> {
    numbers.chunks_exact(4).map(|n| [n[0], n[1], n[2], n[3]]).collect()
}
