//! Interval Bézier curves of an antenna's load: the proved calls of `include/jusqani.h`, by value and
//! without unsafe code for the programs that use them. A side is a whole number of steps of 1/1,024 ohm, and
//! a curve carries the sum of steps by which its cuts and raisings may have moved its sides outward.
#![deny(unsafe_code)]

mod bridge;
mod curve;
pub mod raw;
mod refusal;
mod settings;

pub use bridge::Measurement;
pub use curve::{
    card_length, curve_length, Curve, Elevation, Evaluation, Interval, Rect, Subdivision, Verdict,
    CARD_LENGTH, CURVE_LENGTH, MAX_DEGREE, MAX_DEN, MAX_SIDE, PLACES, RECT_LENGTH, SIXTEENTHS,
    VERDICT_LENGTH,
};
pub use refusal::Refusal;
pub use settings::{Choice, Setting, CHOICE_LENGTH, MAX_SETTINGS};

#[cfg(test)]
mod examples;
