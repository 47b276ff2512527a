//! Inputs: calls that fit a state or almost do, states of every kind, and damaged copies of both.

pub mod broken;
pub mod calls;
pub mod group;
pub mod lines;
pub mod mixes;
pub mod running;
pub mod states;
