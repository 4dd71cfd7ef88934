//! The records of `include/sjurnabel.h`. Two answers are the same if `==` says so: zeros of either sign are one
//! number.

macro_rules! records {
    ($($(#[$note:meta])* $name:ident { $($field:ident: $type:ty),* })*) => { $(
        $(#[$note])*
        #[repr(C)]
        #[derive(Clone, Copy, Debug, PartialEq)]
        pub struct $name { $(pub $field: $type),* }
    )* };
}

records! {
    Interval { lo: f64, hi: f64 }
    Rect { lat: Interval, lng: Interval }
    LatLng { lat: f64, lng: f64 }
    Refused { refusal: u8 }
    YesNo { refusal: u8, value: bool }
    Number { refusal: u8, value: f64 }
    IntervalAnswer { refusal: u8, value: Interval }
    RectAnswer { refusal: u8, value: Rect }
    LatLngAnswer { refusal: u8, value: LatLng }
    /// The line's Hausdorff distance: a number, or none
    Distance { refusal: u8, unbounded: bool, value: f64 }
    Pieces { refusal: u8, count: usize, entry: usize }
    RunningAnswer { refusal: u8, accepted: usize, value: Rect }
}

pub const EMPTY: Rect = Rect {
    lat: Interval { lo: 1.0, hi: 0.0 },
    lng: Interval { lo: std::f64::consts::PI, hi: -std::f64::consts::PI },
};
