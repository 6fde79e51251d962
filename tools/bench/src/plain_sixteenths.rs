//! The plain side of the reading at a sixteenth: what one would write by hand in Rust for any degree, the
//! same slices and the same refusals. The weights are one table, sums are of 64 bits, and since their lower
//! number is a power of two a shift divides and the bits below it are the remainder.

use jusqani::{MAX_DEGREE, MAX_SIDE, PLACES, RECT_LENGTH, SIXTEENTHS};

type Rect = [i32; RECT_LENGTH];
type Points = [Rect; PLACES];

const STEPS_PER_OHM: f32 = 1_024.0;

/// The weights of degree 1 at j from 0 to 16, each for k from 0 to 1, then those of degree 2, and so on.
static WEIGHTS: [u64; 748] = weights();

const fn weights() -> [u64; 748] {
    let mut weights = [0; 748];
    let (mut index, mut n) = (0, 1);
    while n <= MAX_DEGREE {
        let mut j = 0;
        while j <= SIXTEENTHS as u64 {
            let (mut k, mut ways) = (0, 1);
            while k <= n {
                weights[index] = ways * (SIXTEENTHS as u64 - j).pow(n - k) * j.pow(k);
                ways = ways * (n - k) as u64 / (k + 1) as u64;
                (index, k) = (index + 1, k + 1);
            }
            j += 1;
        }
        n += 1;
    }
    weights
}

/// The weights of degree n at j/16.
fn row(n: usize, j: usize) -> &'static [u64] {
    let places = SIXTEENTHS as usize + 1;
    let first = places * (n - 1) * (n + 2) / 2 + j * (n + 1);
    &WEIGHTS[first..=first + n]
}

/// The rectangles 0 to n; sides that the slice does not have are out of range.
pub fn points_of(n: usize, sides: &[i32]) -> Points {
    let mut points = [[MAX_SIDE + 1; RECT_LENGTH]; PLACES];
    let read = sides.len().min(RECT_LENGTH * (n + 1));
    points.as_flattened_mut()[..read].copy_from_slice(&sides[..read]);
    points
}

/// A refusal's answer, as ours has it: the number, and the place above it.
pub const fn refused(number: u64, place: usize) -> u64 {
    (place as u64) << 32 | number
}

/// 2 over all rectangles, 3 over all, then 15.
fn refusal(points: &[Rect], j: u32) -> u64 {
    let limits = -MAX_SIDE..=MAX_SIDE;
    let is_in_range = |point: &Rect| point.iter().all(|side| limits.contains(side));
    if let Some(place) = points.iter().position(|point| !is_in_range(point)) {
        return refused(2, place);
    }
    if let Some(place) = points.iter().position(|p| p[0] > p[1] || p[2] > p[3]) {
        return refused(3, place);
    }
    if j > SIXTEENTHS {
        return refused(15, 0);
    }
    0
}

/// The Bernstein sum of each side.
fn sums(points: &[Rect], weights: &[u64]) -> [i64; RECT_LENGTH] {
    let mut sums = [0; RECT_LENGTH];
    for (point, weight) in points.iter().zip(weights) {
        for (sum, side) in sums.iter_mut().zip(point) {
            *sum += *weight as i64 * i64::from(*side);
        }
    }
    sums
}

/// It is called like ours, and not inlined.
#[inline(never)]
pub fn evaluate_sixteenths(
    degree: u32,
    sides: &[i32],
    j: u32,
    load: &mut [i32],
    ohms: &mut [f32],
    exact: &mut u32,
) -> u64 {
    if !(1..=MAX_DEGREE).contains(&degree) {
        return refused(1, 0);
    }
    let n = degree as usize;
    let points = &points_of(n, sides)[..=n];
    let answer = refusal(points, j);
    if answer != 0 {
        return answer;
    }
    if load.len() < RECT_LENGTH || ohms.len() < RECT_LENGTH {
        return refused(12, RECT_LENGTH);
    }
    let sums = sums(points, row(n, j as usize));
    let shift = 4 * degree;
    let below = (1 << shift) - 1;
    let low = |side: usize| (sums[side] >> shift) as i32;
    let high = |side: usize| ((sums[side] + below) >> shift) as i32;
    let rect = [low(0), high(1), low(2), high(3)];
    load[..RECT_LENGTH].copy_from_slice(&rect);
    ohms[..RECT_LENGTH].copy_from_slice(&rect.map(|side| side as f32 / STEPS_PER_OHM));
    *exact = sums.iter().all(|sum| sum & below == 0).into();
    0
}

#[cfg(test)]
mod tests {
    use super::*;
    use crate::calls::parts;
    use jusqani::raw;
    use second::ask::{Ask, Given};
    use second::corners::FAR_SIXTEENTHS;
    use second::draw;
    use second::rng::Rng;

    type Evaluate = fn(&[i32], u32, &mut [i32], &mut [f32], &mut u32) -> u64;

    const PLAIN: Evaluate = |curve, j, load, ohms, exact| {
        let (degree, _, sides) = parts(curve);
        evaluate_sixteenths(degree, sides, j, load, ohms, exact)
    };

    /// Also where a curve or a place is refused, or the room is too short, both answer alike and leave the
    /// same, from the same buffers.
    #[test]
    fn answers_as_ours_does() {
        let mut rng = Rng::new(9);
        let (mut exact, mut refused) = (0, 0);
        for _ in 0..4_000 {
            let Ask::EvaluateSixteenths { curve, .. } = draw::evaluate_sixteenths(&mut rng) else {
                unreachable!("another call is drawn");
            };
            for j in (0..=SIXTEENTHS).chain(FAR_SIXTEENTHS) {
                let rooms = [(5, 5), (rng.up_to(5), rng.up_to(5))];
                for (room, ohms_room) in rooms {
                    let [ours, plain] = both(&curve, j, room, ohms_room);
                    assert_eq!(ours, plain, "{curve:?}, at {j}/16, room {room} {ohms_room}");
                    exact += usize::from(ours.3 == 1);
                    refused += usize::from(ours.0 != 0);
                }
            }
        }
        assert!(exact > 1_000 && refused > 1_000, "{exact} {refused}");
    }

    type Left = (u64, [i32; 5], [u32; 5], u32);

    /// What both sides answer and leave.
    fn both(given: &Given, j: u32, room: usize, ohms_room: usize) -> [Left; 2] {
        [raw::evaluate_sixteenths, PLAIN].map(|call: Evaluate| {
            let (mut load, mut ohms, mut exact) = ([7; 5], [7.0; 5], 7);
            let (to, display) = (&mut load[..room], &mut ohms[..ohms_room]);
            let answer = call(&given.0, j, to, display, &mut exact);
            (answer, load, ohms.map(f32::to_bits), exact)
        })
    }

    #[test]
    fn has_the_whole_table() {
        assert_eq!(row(2, 8), [64, 128, 64]);
        assert_eq!(row(8, 16)[8], 1 << 32);
        assert_eq!(row(8, 16).as_ptr_range().end, WEIGHTS.as_ptr_range().end);
    }
}
