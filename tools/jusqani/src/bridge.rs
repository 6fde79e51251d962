//! What the bridge measured, and its rectangle.

use crate::{raw, Rect, Refusal, RECT_LENGTH};

/// What the bridge delivers, in ohms.
#[derive(Clone, Copy, PartialEq, Debug)]
pub enum Measurement {
    /// There is nothing to measure, which is a normal result.
    NoCarrier,
    /// A plain load.
    Load { resistance: f32, reactance: f32 },
    /// A load within a spread, which counts in both coordinates and either way.
    LoadWithSpread {
        resistance: f32,
        reactance: f32,
        spread: f32,
    },
}

/// What the call found, as the header numbers it.
const NO_CARRIER: u32 = 1;
const RECTANGLE: u32 = 2;

impl Measurement {
    /// The smallest rectangle of whole steps that holds the load, its low sides less and its high sides
    /// plus the spread, which is by itself rounded up to steps; none where there is no carrier.
    #[inline]
    pub fn enclose(self) -> Result<Option<Rect>, Refusal> {
        match self {
            Measurement::NoCarrier => enclose(&[]),
            Measurement::Load {
                resistance,
                reactance,
            } => enclose(&[resistance, reactance]),
            Measurement::LoadWithSpread {
                resistance,
                reactance,
                spread,
            } => enclose(&[resistance, reactance, spread]),
        }
    }
}

/// The rectangle of measured numbers, whose count tells their form.
#[inline]
fn enclose(ohms: &[f32]) -> Result<Option<Rect>, Refusal> {
    let (mut rect, mut found) = ([0; RECT_LENGTH], 0);
    Refusal::check(raw::enclose(ohms, &mut rect, &mut found))?;
    match found {
        NO_CARRIER => Ok(None),
        RECTANGLE => Ok(Some(rect.into())),
        _ => unreachable!("the call found {found}, which is neither 1 nor 2"),
    }
}
