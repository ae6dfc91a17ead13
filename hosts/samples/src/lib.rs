//! Inputs for comparisons and measurements, drawn from a seed, so that they are the same on every machine.

pub mod borders;
pub mod calendar_steps;
pub mod cutovers;
pub mod damage;
pub mod dates;
pub mod datetime64;
pub mod doubles;
pub mod fragments;
pub mod identifiers;
pub mod instants;
pub mod leap_seconds;
pub mod lines;
pub mod random;
pub mod texts;
pub mod tt2000;
pub mod wholes;

pub use random::Random;
