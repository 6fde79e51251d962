//! Demand 3 over lists of calls: each call gets the curve that the last one left, and at each accepted reading an
//! ordinary curve's load lies in the rectangle read, and no side is farther out than the exact one by more than
//! the sum in the book of places and sums.

use crate::ask::{Ask, Given};
use crate::compare::{Stored, Trial};
use crate::draw;
use crate::fractions::{Bernstein, Natural, Ordinary};
use crate::model::{Curve, Parameter, Rectangle, MAX_DEGREE, MAX_SUM, SIXTEENTHS};
use crate::rng::Rng;

/// Which piece of a cut is kept.
#[derive(Clone, Copy, PartialEq, Debug)]
pub enum Kept {
    Left,
    Right,
}

/// A call that leaves another curve, unless it is refused.
#[derive(Clone, Copy, Debug)]
pub enum Change {
    Cut(Parameter, Kept),
    Raise,
}

impl Change {
    pub fn drawn(rng: &mut Rng) -> Change {
        match rng.below(3) {
            0 => Change::Raise,
            1 => Change::Cut(draw::parameter(rng), Kept::Left),
            _ => Change::Cut(draw::parameter(rng), Kept::Right),
        }
    }

    pub fn ask(&self, curve: Given) -> Ask {
        match *self {
            Change::Cut(t, _) => Ask::Subdivide { curve, t },
            Change::Raise => Ask::Elevate { curve },
        }
    }

    /// The curve that it leaves, from what it stored.
    pub fn left(&self, stored: &Stored) -> Given {
        let kept = usize::from(matches!(self, Change::Cut(_, Kept::Right)));
        Given::stored(&stored.buffers[kept])
    }
}

/// The book of places and sums: a degree, the start and width of the stretch that is left, over a common lower
/// number, the sum of steps, and the sum that the curve's record carries, by which it tells a 17.
pub struct Book {
    degree: usize,
    start: Natural,
    width: Natural,
    lower: Natural,
    pub sum: i64,
    carried: usize,
}

impl Book {
    pub fn open(curve: &Curve) -> Book {
        Book {
            degree: curve.degree,
            start: 0.into(),
            width: 1.into(),
            lower: 1.into(),
            sum: 0,
            carried: curve.sum.into(),
        }
    }

    /// Feeds it a change, and tells whether that is accepted. Its answer is not fed.
    pub fn feed(&mut self, change: &Change) -> bool {
        let (steps, refused) = match change {
            Change::Cut(t, _) => (self.degree, t.check().is_err()),
            Change::Raise => (1, self.degree == MAX_DEGREE),
        };
        if refused || self.carried + steps > MAX_SUM {
            return false;
        }
        self.sum += steps as i64;
        self.carried += steps;
        match change {
            Change::Cut(t, kept) => self.cut(*t, *kept),
            Change::Raise => self.degree += 1,
        }
        true
    }

    fn cut(&mut self, t: Parameter, kept: Kept) {
        let (upper, lower) = self.place(t);
        let part = match kept {
            Kept::Left => t.num,
            Kept::Right => t.den - t.num,
        };
        self.start = match kept {
            Kept::Left => self.start.times(&t.den.into()),
            Kept::Right => upper,
        };
        self.width = self.width.times(&part.into());
        self.lower = lower;
    }

    /// The place of a reading, upper over lower.
    pub fn place(&self, t: Parameter) -> (Natural, Natural) {
        let start = self.start.times(&t.den.into());
        let upper = start.plus(&self.width.times(&t.num.into()));
        (upper, self.lower.times(&t.den.into()))
    }
}

/// The most cuts and raisings of a list.
const CHANGES: usize = 5;

/// Tries one list from a drawn curve: some cuts and raisings, then either reading.
pub fn check(trial: &mut Trial) -> Result<(), String> {
    let degree = 1 + trial.rng.up_to(MAX_DEGREE - 1);
    let sum = trial.rng.pick(&[0, 0, 9, 65_500, 65_530]);
    let start = draw::curve(&mut trial.rng, degree).with_sum(sum);
    let (mut book, mut curve) = (Book::open(&start), Given::of(&start));
    for _ in 0..trial.rng.up_to(CHANGES) {
        let change = Change::drawn(&mut trial.rng);
        let ask = change.ask(curve.clone());
        // A buffer that is too short refuses a call too, which the book is not told of.
        if let Some(stored) = trial.ask(&ask)? {
            curve = change.left(&stored);
            if !book.feed(&change) || usize::from(curve.curve().sum) != book.carried {
                return Err(format!(
                    "the book has another sum or refusal\n{ask:?}\n{stored:?}"
                ));
            }
        }
    }
    read(trial, &start, &book, curve)
}

/// Tries the claim at either reading of the curve that the list left.
fn read(trial: &mut Trial, start: &Curve, book: &Book, curve: Given) -> Result<(), String> {
    let (num, den) = (trial.rng.up_to(17) as u32, SIXTEENTHS);
    let (t, ask, fact) = if trial.rng.one_in(2) {
        let ask = Ask::EvaluateSixteenths { curve, j: num };
        (Parameter { num, den }, ask, "demand 3 at a summed reading")
    } else {
        let t = draw::parameter(&mut trial.rng);
        (
            t,
            Ask::Evaluate { curve, t },
            "demand 3 at a staged reading",
        )
    };
    let Some(stored) = trial.ask(&ask)? else {
        return Ok(());
    };
    let inside = Ordinary::some_inside(start, &mut trial.rng);
    let steps = book.sum + book.degree as i64;
    holds(start, &inside, book.place(t), steps, &stored.rectangle())
        .map_err(|what| format!("{what}\nfrom {start:?}\n{ask:?}\n{stored:?}"))?;
    trial.coverage.hold(fact);
    Ok(())
}

/// The claim at one accepted reading; what fails is said.
fn holds(
    start: &Curve,
    inside: &[Ordinary],
    (upper, lower): (Natural, Natural),
    steps: i64,
    read: &Rectangle,
) -> Result<(), String> {
    let weights = Bernstein::at(start.degree, &upper, &lower);
    for ordinary in inside {
        let [r_low, r_high, x_low, x_high] = weights.load_beside(ordinary, read);
        if r_low.is_lt() || r_high.is_gt() || x_low.is_lt() || x_high.is_gt() {
            return Err("an ordinary curve's load lies outside the rectangle read".to_string());
        }
    }
    let points = start.control_points();
    let low_near = |side| {
        weights
            .side_beside(points, side, read[side] + steps)
            .is_le()
    };
    let high_near = |side| {
        weights
            .side_beside(points, side, read[side] - steps)
            .is_ge()
    };
    if low_near(0) && high_near(1) && low_near(2) && high_near(3) {
        return Ok(());
    }
    Err(format!("a side is more than {steps} steps too far out"))
}

#[cfg(test)]
mod tests {
    use super::*;

    /// Values 1, 0, 3 at 1/2: the exact load is 1, and 2 steps are allowed.
    #[test]
    fn claims_neither_less_nor_more() {
        let start = Curve::new(&[[1, 1, 0, 0], [0, 0, 0, 0], [3, 3, 0, 0]]);
        let inside = Ordinary::some_inside(&start, &mut Rng::new(1));
        let holds =
            |sides: [i64; 4]| holds(&start, &inside, (1.into(), 2.into()), 2, &sides).is_ok();
        for (low, high) in (-3..=3).flat_map(|low| (-1..=5).map(move |high| (low, high))) {
            let right = (-1..=1).contains(&low) && (1..=3).contains(&high);
            assert_eq!(holds([low, high, 0, 0]), right, "{low} {high}");
            assert_eq!(holds([1, 1, low - 1, high - 1]), right, "{low} {high}");
        }
    }

    #[test]
    fn keeps_place_and_sum() {
        let at = |num, den| Parameter { num, den };
        let mut book = Book::open(&Curve::new(&[[0; 4]; 3]).with_sum(65_530));
        assert!(book.feed(&Change::Cut(at(1, 3), Kept::Right)));
        assert!(!book.feed(&Change::Cut(at(4, 3), Kept::Right)));
        assert!(book.feed(&Change::Raise));
        assert!(!book.feed(&Change::Cut(at(1, 4), Kept::Left)));
        assert_eq!((book.carried, book.sum), (65_533, 3));
        // From 1/3 on, two thirds wide; a quarter of that is 1/2.
        let (upper, lower) = book.place(at(1, 4));
        assert_eq!(upper.times(&2.into()), lower);
    }
}
