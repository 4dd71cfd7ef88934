//! The lowest layer: what every question is made of. Nothing here knows any question.

pub mod answer;
pub mod check;
pub mod lines;
pub mod places;
pub mod rng;
pub mod roles;
pub mod words;
