//! The runs of one comparison.

pub mod exhaustive;
pub mod frames;
pub mod images;
pub mod plans;
pub mod running;
pub mod sequences;
pub mod states;
pub mod tables;
pub mod why;
