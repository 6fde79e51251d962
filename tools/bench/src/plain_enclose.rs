//! The plain side of enclose: what one would write by hand in Rust for the same slices and the same
//! refusals. Float comparisons tell the range, and floats are multiplied and rounded to steps. For x86-64
//! as it is built here, without SSE4.1, floor and ceil are calls of the C library.

use jusqani::{MAX_SIDE, RECT_LENGTH};

type Rect = [i32; RECT_LENGTH];

const MAX_OHMS: f32 = 16_384.0;
const STEPS_PER_OHM: f32 = 1_024.0;

/// What was found, as the header numbers it.
const NO_CARRIER: u32 = 1;
const RECTANGLE: u32 = 2;

/// A refusal's answer, as ours has it: the number, and the place above it.
const fn refused(number: u64, place: u64) -> u64 {
    place << 32 | number
}

/// 13 for a resistance and a reactance. What is not a number is in no range.
fn load_refusal(resistance: f32, reactance: f32) -> u64 {
    let loads = -MAX_OHMS..=MAX_OHMS;
    if !loads.contains(&resistance) {
        return refused(13, 0);
    }
    if !loads.contains(&reactance) {
        return refused(13, 1);
    }
    0
}

/// The smallest rectangle of whole steps that holds a load.
fn rect_about(resistance: f32, reactance: f32) -> Rect {
    let low = |ohms: f32| (ohms * STEPS_PER_OHM).floor() as i32;
    let high = |ohms: f32| (ohms * STEPS_PER_OHM).ceil() as i32;
    [
        low(resistance),
        high(resistance),
        low(reactance),
        high(reactance),
    ]
}

fn plain_load(resistance: f32, reactance: f32) -> Result<Rect, u64> {
    match load_refusal(resistance, reactance) {
        0 => Ok(rect_about(resistance, reactance)),
        answer => Err(answer),
    }
}

/// 13 for the load and then for the spread, and 14 for the sides once the spread is applied.
fn with_spread(resistance: f32, reactance: f32, spread: f32) -> Result<Rect, u64> {
    let [r_low, r_high, x_low, x_high] = plain_load(resistance, reactance)?;
    if !(0.0..=MAX_OHMS).contains(&spread) {
        return Err(refused(13, 2));
    }
    let by = (spread * STEPS_PER_OHM).ceil() as i32;
    let rect = [r_low - by, r_high + by, x_low - by, x_high + by];
    if rect[0] < -MAX_SIDE || rect[1] > MAX_SIDE {
        return Err(refused(14, 0));
    }
    if rect[2] < -MAX_SIDE || rect[3] > MAX_SIDE {
        return Err(refused(14, 1));
    }
    Ok(rect)
}

/// The form is told by the length, as for ours. It is called like ours, and not inlined.
#[inline(never)]
pub fn enclose(ohms: &[f32], rect: &mut [i32], found: &mut u32) -> u64 {
    let enclosed = match *ohms {
        [] => {
            *found = NO_CARRIER;
            return 0;
        }
        [resistance] => plain_load(resistance, f32::NAN),
        [resistance, reactance] => plain_load(resistance, reactance),
        [resistance, reactance, spread] => with_spread(resistance, reactance, spread),
        [resistance, reactance, ..] => with_spread(resistance, reactance, f32::NAN),
    };
    match enclosed {
        Err(answer) => answer,
        Ok(_) if rect.len() < RECT_LENGTH => refused(12, RECT_LENGTH as u64),
        Ok(sides) => {
            rect[..RECT_LENGTH].copy_from_slice(&sides);
            *found = RECTANGLE;
            0
        }
    }
}

#[cfg(test)]
mod tests {
    use super::*;
    use jusqani::raw;

    type Enclose = fn(&[f32], &mut [i32], &mut u32) -> u64;

    /// Also where a measurement is refused, both answer alike and leave the same, from the same buffers.
    #[test]
    fn answers_as_ours_does() {
        let least = f32::from_bits(1);
        let edges = [0.0, least, 1.0 / STEPS_PER_OHM, 50.0003, MAX_OHMS];
        let beyond = [MAX_OHMS.next_up(), f32::INFINITY, f32::NAN];
        let numbers = [edges, edges.map(|ohms| -ohms)].concat();
        let numbers = [&numbers[..], &beyond].concat();
        for (r, x, spread) in triples(&numbers) {
            for (length, room) in (0..=4).flat_map(|length| [(length, 3), (length, 5)]) {
                let ohms = &[r, x, spread, spread][..length];
                let [ours, plain] = [raw::enclose as Enclose, enclose].map(|call| {
                    let (mut rect, mut found) = ([7; 5], 7);
                    let answer = call(ohms, &mut rect[..room], &mut found);
                    (answer, rect, found)
                });
                assert_eq!(ours, plain, "{ohms:?}, room for {room}");
            }
        }
    }

    fn triples(numbers: &[f32]) -> impl Iterator<Item = (f32, f32, f32)> + '_ {
        let pairs = move |r| numbers.iter().map(move |&x| (r, x));
        let pairs = numbers.iter().flat_map(move |&r| pairs(r));
        pairs.flat_map(move |(r, x)| numbers.iter().map(move |&spread| (r, x, spread)))
    }
}
