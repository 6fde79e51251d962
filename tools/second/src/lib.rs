//! The second program: document 01 and document 02's points 1 to 4, 6 and 7 written again in ordinary Rust, from
//! the papers and not from the proved code, and asked the same questions as the proved library.
#![forbid(unsafe_code)]

// From the papers.
pub mod bridge;
pub mod card;
pub mod model;
pub mod search;

// What is asked, drawn, compared and counted.
pub mod ask;
pub mod compare;
pub mod corners;
pub mod coverage;
pub mod draw;
pub mod rng;

// What the papers say of the answers, with exact fractions.
pub mod demand3;
pub mod fractions;
pub mod readings;
pub mod record_sum;
pub mod verdicts;

#[cfg(test)]
mod faults;
