//! The lists of relay settings that are timed. Each is drawn about its curve's own bounds, and has as many
//! records as a list may have.

use crate::calls::{parts, Listed, CURVE_SIDES};
use crate::{curve_of, plain_settings, sums, SEED};
use jusqani::{Curve, Interval, Rect, Setting, Verdict};
use jusqani::{CURVE_LENGTH, MAX_DEGREE, MAX_SETTINGS, RECT_LENGTH};
use second::rng::Rng;

/// What every walk is given.
pub const DEPTH: u32 = 6;
pub const BUDGET: u32 = 500;

/// A walk that goes down looks at so many pieces at least. One that goes down at the curve's start alone has
/// no more than seven.
const DEEP: u32 = 4;
/// How many boxes are drawn in search of one, and how many curves in search of one that has all of them.
const TRIES: usize = 1_000;
const CURVES: usize = 10_000;

/// What the records of a list have in common. All walks are made: no record fits, or the last one alone.
#[derive(Clone, Copy, PartialEq, Debug)]
pub enum Kind {
    /// The walks go down, and the last one ends Inside.
    LastFits,
    /// The walks go down, and none ends Inside.
    NoneFits,
    /// The walks go down at the curve's start and end Outside there. No undecided piece comes before, so that
    /// plain Rust looks at the same pieces as a search does.
    StartsOutside,
    /// Each walk ends with its first piece: the boxes lie beside the curve, the last one about it.
    FirstLook,
}

/// A record's walk: how many pieces a search looks at, and how many plain Rust does.
#[derive(Clone, Copy)]
struct Walk {
    verdict: Verdict,
    pieces: u32,
    plain_pieces: u32,
}

/// So many lists.
pub fn lists(kind: Kind, count: usize) -> Vec<Listed> {
    let mut rng = Rng::new(SEED);
    let drawn = (0..CURVES).filter_map(|_| list(&mut rng, kind));
    let summed = drawn.zip(sums(DEPTH * MAX_DEGREE));
    let lists = summed.map(|((curve, settings), sum)| Listed {
        curve: curve.with_sum(sum),
        settings,
    });
    let lists: Vec<_> = lists.take(count).collect();
    assert_eq!(lists.len(), count, "{kind:?}: too few curves have a list");
    lists
}

/// How many pieces a walk looks at on average, in a search and in plain Rust.
pub fn pieces(lists: &[Listed]) -> [f64; 2] {
    let walks = lists.iter().flat_map(|Listed { curve, settings }| {
        let boxes = settings.iter().map(|setting| setting.limits);
        boxes.map(move |limits| walk(curve, limits))
    });
    let both = walks.fold([0, 0], |sums, walk| {
        [sums[0] + walk.pieces, sums[1] + walk.plain_pieces]
    });
    both.map(|sum| f64::from(sum) / (lists.len() * MAX_SETTINGS) as f64)
}

/// A curve with its list; none where no such boxes were found for it.
fn list(rng: &mut Rng, kind: Kind) -> Option<(Curve, Vec<Setting>)> {
    let curve = curve(rng);
    let limits = (1..=MAX_SETTINGS).map(|record| limits(rng, kind, &curve, record == MAX_SETTINGS));
    let limits = limits.collect::<Option<Vec<_>>>()?;
    let setting = |limits| Setting {
        limits,
        number: rng.draw() as u16,
    };
    let settings = limits.into_iter().map(setting).collect();
    Some((curve, settings))
}

/// The box of a record, which may be the last.
fn limits(rng: &mut Rng, kind: Kind, curve: &Curve, is_last: bool) -> Option<Rect> {
    let bounds = curve.bounds().expect("an accepted curve");
    let inside = |walk: Walk| matches!(walk.verdict, Verdict::Inside { .. });
    let goes_down = |walk: Walk| !inside(walk) && walk.pieces >= DEEP;
    let goes_down_outside = |walk: Walk| {
        let outside = matches!(walk.verdict, Verdict::Outside { .. });
        outside && walk.pieces >= DEEP && walk.pieces == walk.plain_pieces
    };
    match kind {
        Kind::FirstLook if is_last => Some(narrower(bounds, [0; RECT_LENGTH])),
        Kind::FirstLook => Some(beside(rng, bounds)),
        Kind::LastFits if is_last => find_box(rng, curve, |walk| inside(walk) && walk.pieces > 1),
        Kind::LastFits | Kind::NoneFits => find_box(rng, curve, goes_down),
        Kind::StartsOutside => find_box(rng, curve, goes_down_outside),
    }
}

/// An accepted curve whose sides are at most half as far out as they may be, so that there is room beside it.
fn curve(rng: &mut Rng) -> Curve {
    let mut curve = curve_of(rng, MAX_DEGREE);
    let sides = &mut curve.numbers[CURVE_LENGTH - CURVE_SIDES..];
    sides.iter_mut().for_each(|side| *side /= 2);
    curve
}

/// The box that just holds the bounds, its sides moved in by so many steps.
fn narrower(bounds: Rect, by: [i32; RECT_LENGTH]) -> Rect {
    let [r_low, r_high, x_low, x_high] = bounds.into();
    [
        r_low + by[0],
        r_high + 1 - by[1],
        x_low + by[2],
        x_high + 1 - by[3],
    ]
    .into()
}

/// A box a little narrower than the bounds, with a walk of some kind; none where none was found.
fn find_box(rng: &mut Rng, curve: &Curve, wanted: impl Fn(Walk) -> bool) -> Option<Rect> {
    let bounds = curve.bounds().expect("an accepted curve");
    let quarter = |side: Interval| i64::from((side.high - side.low) / 4);
    let [r, x] = [bounds.resistance, bounds.reactance].map(quarter);
    let mut by = |quarter: i64| rng.between(0, quarter) as i32 / rng.pick(&[1, 4, 16]);
    let mut drawn = || narrower(bounds, [by(r), by(r), by(x), by(x)]);
    (0..TRIES)
        .map(|_| drawn())
        .find(|limits| wanted(walk(curve, *limits)))
}

/// The walk over an accepted box.
fn walk(curve: &Curve, limits: Rect) -> Walk {
    let verdict = curve.search(limits, DEPTH, BUDGET);
    let verdict = verdict.expect("an accepted box");
    let (Verdict::Inside { count }
    | Verdict::Outside { count, .. }
    | Verdict::Spent { count }
    | Verdict::Undecided { count, .. }) = verdict;
    let (n, _, sides) = parts(&curve.numbers);
    Walk {
        verdict,
        pieces: count,
        plain_pieces: plain_settings::pieces(n as usize, sides, &limits.into(), DEPTH, BUDGET),
    }
}

/// A box just above the bounds in both coordinates.
fn beside(rng: &mut Rng, bounds: Rect) -> Rect {
    let mut above = |side: Interval| {
        let low = side.high + rng.between(1, 1_000) as i32;
        Interval {
            low,
            high: low + rng.between(1, 1_000) as i32,
        }
    };
    Rect {
        resistance: above(bounds.resistance),
        reactance: above(bounds.reactance),
    }
}

#[cfg(test)]
mod tests {
    use super::*;
    use jusqani::Choice;

    fn chosen(list: &Listed) -> Choice {
        let chosen = list.curve.choose_setting(&list.settings, DEPTH, BUDGET);
        chosen.expect("an accepted list")
    }

    /// All walks are made, whatever the kind: no record but the last fits.
    #[test]
    fn draws_lists_that_are_walked_to_their_end() {
        for kind in [Kind::NoneFits, Kind::StartsOutside] {
            let lists = lists(kind, 3);
            assert!(lists.iter().all(|list| chosen(list) == Choice::NoneFits));
        }
        for kind in [Kind::LastFits, Kind::FirstLook] {
            for list in lists(kind, 3) {
                assert_eq!(list.settings.len(), MAX_SETTINGS);
                let index = MAX_SETTINGS - 1;
                let number = list.settings[index].number;
                assert_eq!(chosen(&list), Choice::Fits { index, number });
            }
        }
    }

    /// The walks go down, and where they start outside or end at once both sides look at the same pieces.
    #[test]
    fn draws_walks_of_a_kind() {
        let deep = f64::from(DEEP);
        let looked_at = |kind| pieces(&lists(kind, 3));
        assert!(looked_at(Kind::LastFits)[0] > deep && looked_at(Kind::NoneFits)[0] > deep);
        let [search, plain] = looked_at(Kind::StartsOutside);
        assert!(search >= deep && search == plain);
        assert_eq!(looked_at(Kind::FirstLook), [1.0; 2]);
    }
}
