//! Drawing: numbers, circle intervals, rectangles and points, and the operands of a question. Nothing here knows
//! any question.

pub mod circle;
pub mod number;
pub mod operands;
pub mod rect;

pub use number::{neighbour, EDGES, OUTSIDE};
pub use operands::{bad_rect, numbers, outside, spoil_some};
