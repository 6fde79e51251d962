//! The plain side of the choice of a setting: what one would write by hand in Rust for any degree, the same
//! slices and the same refusals. All checks come first. A walk is a function that calls itself and says
//! only whether it ends Inside. So it ends at the first piece that lies outside the box, that the depth
//! leaves undecided or that the budget does not reach; the walk of a search goes on behind an undecided
//! piece, since one that lies outside may come. A piece is cut by the stages of plain subdivide, called with
//! 1 and 2, so that every side has its division; the exact flag, which no walk needs, is not looked at, and a
//! piece has no sum of steps, which no walk needs once the curve's is tested.

use crate::plain::stage;
use crate::plain_sixteenths::{points_of, refused};
use jusqani::{Setting, CHOICE_LENGTH, MAX_DEGREE, MAX_SETTINGS, MAX_SIDE, PLACES, RECT_LENGTH};

type Rect = [i32; RECT_LENGTH];
type Points = [Rect; PLACES];

const MAX_DEPTH: u32 = 12;
const MAX_BUDGET: u32 = 8_191;

/// The middle of the band.
const NUM: u32 = 1;
const DEN: u32 = 2;

/// What was found, as the header numbers it.
const FITS: u32 = 1;
const NONE_FITS: u32 = 2;

fn is_in_range(rect: &Rect) -> bool {
    rect.iter()
        .all(|side| (-MAX_SIDE..=MAX_SIDE).contains(side))
}

fn is_box(limits: Rect) -> bool {
    is_in_range(&limits) && limits[0] < limits[1] && limits[2] < limits[3]
}

/// 2 over all rectangles, 3 over all, 7 over all records, then 8, 9 and 17.
fn refusal(points: &[Rect], sum: u16, settings: &[Setting], depth: u32, budget: u32) -> u64 {
    if let Some(place) = points.iter().position(|point| !is_in_range(point)) {
        return refused(2, place);
    }
    if let Some(place) = points.iter().position(|p| p[0] > p[1] || p[2] > p[3]) {
        return refused(3, place);
    }
    let mut boxes = settings.iter().map(|setting| setting.limits.into());
    if let Some(place) = boxes.position(|limits| !is_box(limits)) {
        return refused(7, place);
    }
    if depth > MAX_DEPTH {
        return refused(8, 0);
    }
    if !(1..=MAX_BUDGET).contains(&budget) {
        return refused(9, 0);
    }
    let degree = points.len() as u32 - 1;
    if u32::from(sum) + depth * degree > u16::MAX.into() {
        return refused(17, 0);
    }
    0
}

/// The least rectangle that holds all.
fn bounds(points: &[Rect]) -> Rect {
    let mut bounds = points[0];
    for point in &points[1..] {
        bounds[0] = bounds[0].min(point[0]);
        bounds[1] = bounds[1].max(point[1]);
        bounds[2] = bounds[2].min(point[2]);
        bounds[3] = bounds[3].max(point[3]);
    }
    bounds
}

/// The pieces up to the middle and from there on. The first rectangle of each stage is the left piece; what
/// the stages leave in place is the right one.
fn halves(points: &[Rect]) -> (Points, Points) {
    let (mut left, mut right) = ([[0; RECT_LENGTH]; PLACES], [[0; RECT_LENGTH]; PLACES]);
    right[..points.len()].copy_from_slice(points);
    left[0] = points[0];
    for k in 1..points.len() {
        stage(&mut right[..=points.len() - k], NUM, DEN);
        left[k] = right[0];
    }
    (left, right)
}

/// Whether the walk over a box ends Inside: every piece that it comes to lies in the box, or both its halves
/// do, none deeper than the depth and no more looked at than the budget.
fn is_inside(points: &[Rect], limits: &Rect, depth: u32, budget: &mut u32) -> bool {
    if *budget == 0 {
        return false;
    }
    *budget -= 1;
    let b = bounds(points);
    let in_box = |low: usize| limits[low] <= b[low] && b[low + 1] < limits[low + 1];
    if in_box(0) && in_box(2) {
        return true;
    }
    let apart = |low: usize| b[low + 1] < limits[low] || limits[low + 1] <= b[low];
    if apart(0) || apart(2) || depth == 0 {
        return false;
    }
    let (left, right) = halves(points);
    let mut half = |piece: &Points| is_inside(&piece[..points.len()], limits, depth - 1, budget);
    half(&left) && half(&right)
}

/// How many pieces a walk over a box looks at; all that it is given is accepted.
pub fn pieces(n: usize, sides: &[i32], limits: &Rect, depth: u32, budget: u32) -> u32 {
    let mut left = budget;
    is_inside(&points_of(n, sides)[..=n], limits, depth, &mut left);
    budget - left
}

/// It is called like ours, and not inlined.
#[inline(never)]
pub fn choose_setting(
    degree: u32,
    sum: u16,
    sides: &[i32],
    settings: &[Setting],
    depth: u32,
    budget: u32,
    choice: &mut [u32],
) -> u64 {
    if !(1..=MAX_SETTINGS).contains(&settings.len()) {
        return refused(16, settings.len());
    }
    if !(1..=MAX_DEGREE).contains(&degree) {
        return refused(1, 0);
    }
    let n = degree as usize;
    let points = &points_of(n, sides)[..=n];
    let answer = refusal(points, sum, settings, depth, budget);
    if answer != 0 {
        return answer;
    }
    if choice.len() < CHOICE_LENGTH {
        return refused(12, CHOICE_LENGTH);
    }
    let fits = |s: &Setting| is_inside(points, &s.limits.into(), depth, &mut { budget });
    let chosen = match settings.iter().position(fits) {
        Some(index) => [FITS, index as u32, settings[index].number.into()],
        None => [NONE_FITS, 0, 0],
    };
    choice[..CHOICE_LENGTH].copy_from_slice(&chosen);
    0
}

#[cfg(test)]
mod tests {
    use super::*;
    use crate::calls::parts;
    use jusqani::raw;
    use second::ask::Given;
    use second::draw;
    use second::rng::Rng;

    type Choose = fn(&[i32], &[Setting], u32, u32, &mut [u32]) -> u64;

    const PLAIN: Choose = |curve, settings, depth, budget, choice| {
        let (degree, sum, sides) = parts(curve);
        choose_setting(degree, sum, sides, settings, depth, budget, choice)
    };

    /// Also where a list, a curve, a depth, a budget or a sum is refused, or the room is too short, both answer
    /// alike and leave the same, from the same buffer.
    #[test]
    fn answers_as_ours_does() {
        let mut rng = Rng::new(10);
        let (mut fits, mut none, mut refused, mut summed) = (0, 0, 0, 0);
        for k in 0..12_000 {
            let (degree, depth) = (1 + k % MAX_DEGREE, rng.pick(&[0, 1, 3, 5, 6, 13]));
            let drawn = draw::curve(&mut rng, degree as usize);
            let given = draw::given(&mut rng, drawn, (degree * depth) as usize);
            let settings = settings(&mut rng, &given);
            let budget = rng.pick(&[0, 1, 3, 9, 500, 500, 8_191, 8_192]);
            let room = rng.pick(&[0, 2, 3, 3, 4, 4, 4, 4]);
            let [ours, plain] = [raw::choose_setting, PLAIN].map(|call: Choose| {
                let mut choice = [7; CHOICE_LENGTH + 1];
                let answer = call(&given.0, &settings, depth, budget, &mut choice[..room]);
                (answer, choice)
            });
            assert_eq!(ours, plain, "{given:?}, {settings:?}, {depth}, {budget}");
            refused += usize::from(ours.0 != 0);
            summed += usize::from(ours.0 == 17);
            fits += usize::from(ours.0 == 0 && ours.1[0] == FITS);
            none += usize::from(ours.0 == 0 && ours.1[0] == NONE_FITS);
        }
        let came = [fits, none, refused, summed];
        assert!(came.iter().all(|times| *times > 500), "{came:?}");
    }

    /// Settings about a curve's bounds, or about zero where it has none; one list in eight has a length that
    /// is refused, and one box in 64 is no box.
    fn settings(rng: &mut Rng, given: &Given) -> Vec<Setting> {
        let mut bounds = [-5, 5, -5, 5];
        raw::bounds(&given.0, &mut bounds);
        let count = rng.pick(&[1, 1, 2, 2, 3, 3, 5, 5, 8, 8, 33, 33, 63, 64, 0, 65]);
        let setting = |_| Setting {
            limits: limits(rng, bounds).into(),
            number: rng.draw() as u16,
        };
        (0..count).map(setting).collect()
    }

    fn limits(rng: &mut Rng, bounds: Rect) -> Rect {
        let mut limits = [0; RECT_LENGTH];
        for low in [0, 2] {
            let [from, to] = [bounds[low], bounds[low + 1]].map(i64::from);
            let (out, inward) = ((to - from) / 8 + 1, (to - from) / 4);
            let end = i64::from(MAX_SIDE);
            let least = (from + rng.between(-out, inward)).clamp(-end, end - 1);
            let first_out = to + 1 - rng.between(-out, inward);
            limits[low] = least as i32;
            limits[low + 1] = first_out.clamp(least + 1, end) as i32;
        }
        if rng.one_in(64) {
            limits[rng.pick(&[0, 2])] = rng.pick(&[MAX_SIDE, -MAX_SIDE - 1, i32::MIN]);
        }
        limits
    }

    /// Values 0, 4, 0 stay below 3, which the walk finds with three pieces.
    #[test]
    fn counts_the_pieces() {
        let sides = [0, 0, 0, 0, 4, 4, 0, 0, 0, 0, 0, 0];
        assert_eq!(pieces(2, &sides, &[0, 3, 0, 1], 12, 500), 3);
        assert_eq!(pieces(2, &sides, &[0, 3, 0, 1], 12, 2), 2);
        assert_eq!(pieces(2, &sides, &[0, 3, 0, 1], 0, 500), 1);
        assert_eq!(pieces(2, &sides, &[0, 5, 0, 1], 12, 500), 1);
    }
}
