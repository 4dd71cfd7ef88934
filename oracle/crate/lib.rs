//! The root of the crate s2 as the oracle builds it: only the files that are compared, and what these
//! need to compile.
//!
//! `oracle/build` puts this file beside unchanged copies of the crate's own files. A later layer adds
//! its modules here and its files to the list FILES in `oracle/crate.sh`.

pub mod consts;

pub mod r1 {
    pub mod interval;
}

pub mod r3 {
    pub mod vector;
}

pub mod s1 {
    pub mod angle;
    pub mod interval;

    pub use self::angle::*;
    pub use self::interval::Interval;
}

/// The file of the circle interval once more, unchanged, with a public way beside it to the one
/// function that it keeps to itself.
pub mod circle_opened {
    include!("s1/interval.rs");

    pub fn opened_positive_distance(a: f64, b: f64) -> f64 {
        positive_distance(a, b)
    }
}

pub mod s2 {
    pub mod latlng;
    pub mod rect;

    pub use super::left_behind::{cap, cell, edgeutil, point, region};
}

/// What `latlng.rs` and `rect.rs` name and the port leaves behind: points on the sphere, caps, cells and
/// edges. Only the names and types are here, so that the two files compile. Every function ends the
/// program, so no answer can come to lean on one.
mod left_behind {
    macro_rules! ends_the_program {
        ($($public:vis fn $name:ident($($operands:tt)*) -> $gives:ty;)*) => {
            $($public fn $name($($operands)*) -> $gives {
                unimplemented!()
            })*
        };
    }

    pub mod point {
        use std::ops::{Add, Mul, Sub};

        use crate::r3::vector::Vector;
        use crate::s1::Angle;

        #[derive(Clone, Copy, Default)]
        pub struct Point(pub Vector);

        impl Point {
            ends_the_program! {
                pub fn from_coords(_x: f64, _y: f64, _z: f64) -> Self;
                pub fn cross(&self, _other: &Self) -> Self;
                pub fn normalize(&self) -> Self;
                pub fn distance(&self, _other: &Self) -> Angle;
            }
        }

        impl Add<Point> for Point {
            type Output = Point;
            ends_the_program! { fn add(self, _other: Point) -> Point; }
        }

        impl Sub<Point> for Point {
            type Output = Point;
            ends_the_program! { fn sub(self, _other: Point) -> Point; }
        }

        impl Mul<f64> for Point {
            type Output = Point;
            ends_the_program! { fn mul(self, _by: f64) -> Point; }
        }
    }

    pub mod cap {
        use super::point::Point;
        use crate::s1::Angle;

        pub struct Cap;

        impl Cap {
            ends_the_program! {
                pub fn empty() -> Self;
                pub fn from_center_angle(_center: &Point, _angle: &Angle) -> Self;
                pub fn height(&self) -> f64;
            }
        }

        impl From<&Point> for Cap {
            ends_the_program! { fn from(_center: &Point) -> Self; }
        }

        impl std::ops::Add<Point> for Cap {
            type Output = Cap;
            ends_the_program! { fn add(self, _point: Point) -> Cap; }
        }
    }

    pub mod cell {
        use super::point::Point;
        use crate::r3::vector::Vector;
        use crate::s2::rect::Rect;

        pub struct CellId;

        impl CellId {
            ends_the_program! { pub fn raw_point(&self) -> Vector; }
        }

        pub struct Cell {
            pub id: CellId,
        }

        impl Cell {
            ends_the_program! {
                pub fn rect_bound(&self) -> Rect;
                pub fn contains_point(&self, _point: &Point) -> bool;
                pub fn vertex(&self, _number: usize) -> Point;
            }
        }
    }

    pub mod region {
        use super::cap::Cap;
        use super::cell::Cell;
        use crate::s2::rect::Rect;

        pub trait Region {
            fn cap_bound(&self) -> Cap;
            fn rect_bound(&self) -> Rect;
            fn contains_cell(&self, cell: &Cell) -> bool;
            fn intersects_cell(&self, cell: &Cell) -> bool;
        }
    }

    pub mod edgeutil {
        use super::point::Point;
        use crate::s1::Angle;

        ends_the_program! {
            pub fn simple_crossing(_a: &Point, _b: &Point, _c: &Point, _d: &Point) -> bool;
            pub fn distance_from_segment(_x: &Point, _a: &Point, _b: &Point) -> Angle;
        }
    }
}
