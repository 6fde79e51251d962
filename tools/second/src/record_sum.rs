//! The sum that a curve's record carries: for a curve reached from a card by cuts and raisings, no side is short of
//! what the same steps without rounding give, and none is farther out by more than that sum.

use crate::ask::{Ask, Given};
use crate::card::card_of;
use crate::compare::Trial;
use crate::demand3::{Change, Kept};
use crate::draw;
use crate::fractions::{Integer, Natural};
use crate::model::{Curve, Parameter, Rectangle, MAX_DEGREE};

/// The exact sides of control points, over one common lower number.
struct Exact {
    points: Vec<[Integer; 4]>,
    lower: Natural,
}

impl Exact {
    fn of(curve: &Curve) -> Exact {
        let lower = Natural::from(1);
        let sides = |point: &Rectangle| point.map(|side| Integer::product(side, &lower));
        Exact {
            points: curve.control_points().iter().map(sides).collect(),
            lower,
        }
    }

    fn change(&mut self, change: &Change) {
        match *change {
            Change::Cut(t, kept) => self.cut(t, kept),
            Change::Raise => self.raise(),
        }
    }

    /// De Casteljau's subdivision. Stage s is over the den to the power s, and all points are brought over its
    /// power n.
    fn cut(&mut self, t: Parameter, kept: Kept) {
        let n = self.points.len() - 1;
        let powers = Natural::from(t.den).powers(n);
        let mut stage = std::mem::take(&mut self.points);
        for s in 0..=n {
            let end = match kept {
                Kept::Left => &stage[0],
                Kept::Right => &stage[n - s],
            };
            let end = end.each_ref().map(|side| side.times(&powers[n - s]));
            self.points.push(end);
            let pairs = stage.iter().zip(&stage[1..]);
            stage = pairs
                .map(|(a, b)| weighted(t.den - t.num, a, t.num, b))
                .collect();
        }
        if kept == Kept::Right {
            self.points.reverse();
        }
        self.lower = self.lower.times(&powers[n]);
    }

    /// New point k is (k × P(k-1) + (n + 1 - k) × P(k)) / (n + 1); at the ends a point is absent.
    fn raise(&mut self) {
        let degree = self.points.len();
        let point = |k: usize| &self.points[k.min(degree - 1)];
        let raised = (0..=degree).map(|k| {
            // An absent point has factor 0, so that any other may stand for it.
            weighted(
                k as u32,
                point(k.saturating_sub(1)),
                (degree - k) as u32,
                point(k),
            )
        });
        self.points = raised.collect();
        self.lower = self.lower.times(&(degree as u32).into());
    }

    /// Whether the sides of control point k are at the exact ones or outward of them by no more than the sum.
    fn holds(&self, k: usize, point: &Rectangle, sum: i64) -> bool {
        (0..4).all(|side| {
            let to =
                |number: i64| self.points[k][side].compare(&Integer::product(number, &self.lower));
            match side % 2 {
                0 => to(point[side]).is_ge() && to(point[side] + sum).is_le(),
                _ => to(point[side]).is_le() && to(point[side] - sum).is_ge(),
            }
        })
    }
}

/// p × a + q × b of all four sides.
fn weighted(p: u32, a: &[Integer; 4], q: u32, b: &[Integer; 4]) -> [Integer; 4] {
    std::array::from_fn(|side| Integer::weighted(p, &a[side], q, &b[side]))
}

/// The most cuts and raisings of a list.
const CHANGES: usize = 4;

/// Tries the curves that a list of cuts and raisings from a drawn card reaches.
pub fn check(trial: &mut Trial) -> Result<(), String> {
    let degree = 1 + trial.rng.up_to(MAX_DEGREE - 1);
    let card = card_of(&draw::curve(&mut trial.rng, degree));
    let Some(read) = trial.ask(&Ask::ReadCard { card })? else {
        return Ok(());
    };
    let mut given = Given::stored(&read.buffers[0]);
    let mut exact = Exact::of(&given.curve());
    for _ in 0..1 + trial.rng.up_to(CHANGES - 1) {
        let change = Change::drawn(&mut trial.rng);
        let Some(stored) = trial.ask(&change.ask(given.clone()))? else {
            continue;
        };
        given = change.left(&stored);
        exact.change(&change);
        let curve = given.curve();
        for (k, point) in curve.control_points().iter().enumerate() {
            if !exact.holds(k, point, curve.sum.into()) {
                return Err(format!(
                    "control point {k} is farther out than the sum\n{given:?}"
                ));
            }
            trial
                .coverage
                .hold("a control point lies within its record's sum");
        }
    }
    Ok(())
}

#[cfg(test)]
mod tests {
    use super::*;

    const HALF: Parameter = Parameter { num: 1, den: 2 };

    /// Values 1, 0, 3: the left half is 1, 1/2, 1 and the right one 1, 3/2, 3; raised once, 1, 1/3, 1, 3.
    #[test]
    fn cuts_and_raises_without_rounding() {
        let after = |change: Change| {
            let mut exact = Exact::of(&Curve::new(&[[1; 4], [0; 4], [3; 4]]));
            exact.change(&change);
            exact
        };
        let left = after(Change::Cut(HALF, Kept::Left));
        assert!(left.holds(0, &[1; 4], 0) && left.holds(2, &[1; 4], 0));
        assert!(left.holds(1, &[0, 1, 0, 1], 1) && !left.holds(1, &[0, 1, 0, 1], 0));
        assert!(left.holds(1, &[-1, 2, -1, 2], 2) && !left.holds(1, &[-1, 1, 0, 1], 1));
        assert!(!left.holds(1, &[1, 1, 0, 1], 9) && !left.holds(1, &[0, 1, 0, 0], 9));
        let right = after(Change::Cut(HALF, Kept::Right));
        assert!(right.holds(0, &[1; 4], 0) && right.holds(1, &[1, 2, 1, 2], 1));
        let raised = after(Change::Raise);
        assert!(raised.holds(1, &[0, 1, 0, 1], 1) && raised.holds(2, &[1; 4], 0));
    }
}
