//! Lists of calls from cards: their text, and the answer to each card and call. The text's form is in README.md,
//! "Replaying lists of calls".
#![forbid(unsafe_code)]

mod call;
mod columns;
mod input;
mod line;
mod natural;
pub mod run;
mod session;
mod stretch;

pub use call::{Call, Request};
pub use input::{Input, Malformed, Stop};
pub use stretch::Kept;
