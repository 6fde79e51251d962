//! The bridge module of document 02's point 2: a measured load becomes a rectangle of whole steps. Each
//! number is taken apart by its bits and worked out in whole numbers, so that nothing here rests on the
//! machine's floating point.

use crate::model::{refuse_if, Rectangle, Refusal, MAX_SIDE};

/// What the bridge delivers, by the bits of its single-precision ohms: resistance, reactance and spread.
#[derive(Clone, Copy, PartialEq, Debug)]
pub enum Measurement {
    NoCarrier,
    Load([u32; 2]),
    LoadWithSpread([u32; 3]),
}

/// A number in steps, rounded down and rounded up to a whole one.
#[derive(Clone, Copy, PartialEq, Debug)]
pub struct Steps {
    pub low: i64,
    pub high: i64,
}

/// The places of refusals 13 and 14.
const RESISTANCE: usize = 0;
const REACTANCE: usize = 1;
const SPREAD: usize = 2;

impl Measurement {
    /// The rectangle that holds what was measured, or none where there is no carrier.
    pub fn enclose(self) -> Result<Option<Rectangle>, Refusal> {
        let [r, x] = match self {
            Measurement::NoCarrier => return Ok(None),
            Measurement::Load([r, x]) => [load(r, RESISTANCE)?, load(x, REACTANCE)?],
            Measurement::LoadWithSpread([r, x, spread]) => {
                let (r, x) = (load(r, RESISTANCE)?, load(x, REACTANCE)?);
                let steps = spread_up(spread)?;
                [widen(r, steps, RESISTANCE)?, widen(x, steps, REACTANCE)?]
            }
        };
        Ok(Some([r.low, r.high, x.low, x.high]))
    }
}

/// A resistance or a reactance, or refusal 13. The limit is a whole number of steps, so a load is beyond
/// it exactly if it is rounded to a step beyond.
fn load(bits: u32, place: usize) -> Result<Steps, Refusal> {
    let steps = steps_of(bits).ok_or(Refusal { number: 13, place })?;
    refuse_if(steps.is_out_of_range(), 13, place)?;
    Ok(steps)
}

/// A spread rounded up, or refusal 13. It is below zero exactly if it is rounded down to a step below.
fn spread_up(bits: u32) -> Result<i64, Refusal> {
    let steps = load(bits, SPREAD)?;
    refuse_if(steps.low < 0, 13, SPREAD)?;
    Ok(steps.high)
}

/// The low less the spread and the high plus the same, or refusal 14.
fn widen(load: Steps, spread: i64, place: usize) -> Result<Steps, Refusal> {
    let (low, high) = (load.low - spread, load.high + spread);
    let widened = Steps { low, high };
    refuse_if(widened.is_out_of_range(), 14, place)?;
    Ok(widened)
}

impl Steps {
    fn is_out_of_range(&self) -> bool {
        self.low < -MAX_SIDE || self.high > MAX_SIDE
    }
}

/// A finite number of ohms in steps; none where it is infinite or not a number.
pub fn steps_of(bits: u32) -> Option<Steps> {
    let (exponent, fraction) = ((bits >> 23) & 0xff, u64::from(bits & 0x007f_ffff));
    // The size is a whole number times 2^(power - 150) ohms, which is 2^(power - 140) steps.
    let (whole, power) = match exponent {
        255 => return None,
        0 => (fraction, 1),
        _ => (fraction | (1 << 23), exponent),
    };
    // From 2^63 on a size is far out of range and need not be told apart; 63 shifts leave nothing.
    let size = whole << power.saturating_sub(140).min(40);
    let down = 140_u32.saturating_sub(power).min(63);
    let below = size >> down;
    let above = below + u64::from(below << down != size);
    let (below, above) = (below as i64, above as i64);
    let (low, high) = match bits >> 31 {
        0 => (below, above),
        _ => (-above, -below),
    };
    Some(Steps { low, high })
}

#[cfg(test)]
mod tests {
    use super::*;
    use crate::corners;
    use crate::rng::Rng;

    fn enclosed(ohms: &[f32]) -> Result<Rectangle, (u32, usize)> {
        let measurement = match *ohms {
            [r, x] => Measurement::Load([r.to_bits(), x.to_bits()]),
            [r, x, s] => Measurement::LoadWithSpread([r.to_bits(), x.to_bits(), s.to_bits()]),
            _ => unreachable!("{ohms:?} is no load"),
        };
        let enclosed = measurement.enclose();
        enclosed
            .map(|rectangle| rectangle.expect("a rectangle"))
            .map_err(|refusal| (refusal.number, refusal.place))
    }

    #[test]
    fn encloses_in_whole_steps() {
        assert_eq!(Measurement::NoCarrier.enclose(), Ok(None));
        assert_eq!(enclosed(&[50.0, -0.5]), Ok([51_200, 51_200, -512, -512]));
        assert_eq!(enclosed(&[-0.0009765625, 0.0001]), Ok([-1, -1, 0, 1]));
        assert_eq!(enclosed(&[-0.0001, -0.0]), Ok([-1, 0, 0, 0]));
        let smallest = f32::from_bits(1);
        assert_eq!(enclosed(&[smallest, -smallest]), Ok([0, 1, -1, 0]));
    }

    #[test]
    fn widens_by_the_spread_rounded_up() {
        // Half a step each: the load and the spread are rounded, and not their sum.
        let half = 0.00048828125;
        assert_eq!(enclosed(&[half, -half, half]), Ok([-1, 2, -2, 1]));
        assert_eq!(enclosed(&[1.0, 0.0, -0.0]), Ok([1_024, 1_024, 0, 0]));
        let whole = [-MAX_SIDE, MAX_SIDE, -MAX_SIDE, MAX_SIDE];
        assert_eq!(enclosed(&[0.0, -0.0, 16_384.0]), Ok(whole));
    }

    #[test]
    fn refuses_in_the_order_of_the_paper() {
        let (limit, nan) = (16_384.0_f32, f32::NAN);
        let beyond = limit.next_up();
        assert_eq!(enclosed(&[beyond, nan, nan]), Err((13, 0)));
        assert_eq!(enclosed(&[limit, -beyond, -1.0]), Err((13, 1)));
        for spread in [nan, f32::INFINITY, beyond, -f32::from_bits(1)] {
            assert_eq!(enclosed(&[limit, limit, spread]), Err((13, 2)), "{spread}");
        }
        let step = 1.0 / 1_024.0;
        assert_eq!(enclosed(&[limit, -limit, step]), Err((14, 0)));
        assert_eq!(enclosed(&[limit - step, -limit, step]), Err((14, 1)));
    }

    /// In double precision the product with 1,024 and its rounding lose nothing.
    fn steps_by_doubles(bits: u32) -> Option<Steps> {
        let steps = f64::from(f32::from_bits(bits)) * 1_024.0;
        steps.is_finite().then(|| Steps {
            low: steps.floor() as i64,
            high: steps.ceil() as i64,
        })
    }

    #[test]
    fn rounds_as_double_precision_does() {
        let mut rng = Rng::new(10);
        let drawn = (0..50_000).map(|_| rng.draw() as u32);
        for bits in corners::floats().chain(drawn) {
            let [ours, theirs] = [steps_of(bits), steps_by_doubles(bits)];
            let both_far = [ours, theirs].map(|steps| steps.is_some_and(|s| s.is_out_of_range()));
            assert!(
                ours == theirs || both_far == [true; 2],
                "{bits:#010x} {ours:?} {theirs:?}"
            );
        }
    }
}
