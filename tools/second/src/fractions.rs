//! Exact fractions, as whole numbers of any size over a common lower number: as much of them as the book of places
//! and the Bernstein sums need.

use crate::model::{ways, Curve, Rectangle};
use crate::rng::Rng;
use std::cmp::Ordering;

/// Digits of 64 bits, least first; the last is not 0.
#[derive(Clone, PartialEq, Eq, Debug)]
pub struct Natural(Vec<u64>);

impl From<u32> for Natural {
    fn from(number: u32) -> Natural {
        Natural(vec![number.into()]).trimmed()
    }
}

impl Natural {
    fn trim(&mut self) {
        while self.0.last() == Some(&0) {
            self.0.pop();
        }
    }

    fn trimmed(mut self) -> Natural {
        self.trim();
        self
    }

    /// Adds factor × other.
    fn add_product(&mut self, factor: u64, other: &Natural) {
        if factor == 0 {
            return;
        }
        let length = self.0.len().max(other.0.len() + 1);
        self.0.resize(length, 0);
        let mut carry = 0;
        for (k, digit) in self.0.iter_mut().enumerate() {
            let added = other.0.get(k).copied().unwrap_or(0);
            carry += u128::from(*digit) + u128::from(factor) * u128::from(added);
            *digit = carry as u64;
            carry >>= 64;
        }
        self.0.push(carry as u64);
        self.trim();
    }

    pub fn plus(&self, other: &Natural) -> Natural {
        let mut sum = self.clone();
        sum.add_product(1, other);
        sum
    }

    /// The difference, for a number that is not below the other.
    pub fn minus(&self, other: &Natural) -> Natural {
        assert!(*self >= *other, "a difference below 0");
        let mut digits = self.0.clone();
        let mut borrow = 0;
        for (k, digit) in digits.iter_mut().enumerate() {
            let taken = u128::from(other.0.get(k).copied().unwrap_or(0)) + borrow;
            borrow = u128::from(u128::from(*digit) < taken);
            *digit = digit.wrapping_sub(taken as u64);
        }
        Natural(digits).trimmed()
    }

    pub fn times(&self, other: &Natural) -> Natural {
        let mut digits = vec![0; self.0.len() + other.0.len()];
        for (i, a) in self.0.iter().enumerate() {
            let mut carry = 0;
            for (j, b) in other.0.iter().enumerate() {
                carry += u128::from(digits[i + j]) + u128::from(*a) * u128::from(*b);
                digits[i + j] = carry as u64;
                carry >>= 64;
            }
            digits[i + other.0.len()] = carry as u64;
        }
        Natural(digits).trimmed()
    }

    /// Powers 0 to the highest; 0 to the power 0 is 1.
    pub fn powers(&self, highest: usize) -> Vec<Natural> {
        let mut powers = vec![Natural::from(1)];
        for k in 0..highest {
            powers.push(powers[k].times(self));
        }
        powers
    }
}

impl Ord for Natural {
    fn cmp(&self, other: &Natural) -> Ordering {
        let digits = self.0.iter().rev().cmp(other.0.iter().rev());
        self.0.len().cmp(&other.0.len()).then(digits)
    }
}

impl PartialOrd for Natural {
    fn partial_cmp(&self, other: &Natural) -> Option<Ordering> {
        Some(self.cmp(other))
    }
}

/// A whole number of either sign, as what is added less what is taken away.
#[derive(Clone, Debug)]
pub struct Integer {
    added: Natural,
    taken: Natural,
}

impl Integer {
    pub const fn zero() -> Integer {
        Integer {
            added: Natural(Vec::new()),
            taken: Natural(Vec::new()),
        }
    }

    /// A small number times a natural one.
    pub fn product(factor: i64, natural: &Natural) -> Integer {
        let mut whole = Integer::zero();
        whole.add_product(factor, natural);
        whole
    }

    /// Adds a small number times a natural one.
    pub fn add_product(&mut self, factor: i64, natural: &Natural) {
        let side = if factor < 0 {
            &mut self.taken
        } else {
            &mut self.added
        };
        side.add_product(factor.unsigned_abs(), natural);
    }

    /// p × a + q × b.
    pub fn weighted(p: u32, a: &Integer, q: u32, b: &Integer) -> Integer {
        let mut sum = Integer::zero();
        for (factor, number) in [(p, a), (q, b)] {
            sum.added.add_product(factor.into(), &number.added);
            sum.taken.add_product(factor.into(), &number.taken);
        }
        sum
    }

    pub fn times(&self, natural: &Natural) -> Integer {
        Integer {
            added: self.added.times(natural),
            taken: self.taken.times(natural),
        }
    }

    pub fn compare(&self, other: &Integer) -> Ordering {
        let mine = self.added.plus(&other.taken);
        mine.cmp(&other.added.plus(&self.taken))
    }
}

/// An ordinary Bézier curve inside a curve's rectangles (the paper's ordinary curve): its control points'
/// resistances and reactances are these numbers over PARTS.
pub struct Ordinary([Vec<i64>; 2]);

/// In how many parts an interval is divided, to choose a coordinate at its ends or between.
const PARTS: i64 = 12;

impl Ordinary {
    /// `choose` gives, for each coordinate, how many parts of the way from low to high it lies.
    pub fn inside(curve: &Curve, mut choose: impl FnMut() -> i64) -> Ordinary {
        Ordinary([0, 2].map(|low| {
            let points = curve.control_points().iter();
            points
                .map(|r| PARTS * r[low] + (r[low + 1] - r[low]) * choose())
                .collect()
        }))
    }

    /// All lows, all highs, corners drawn, and points between drawn.
    pub fn some_inside(curve: &Curve, rng: &mut Rng) -> [Ordinary; 4] {
        [
            Ordinary::inside(curve, || 0),
            Ordinary::inside(curve, || PARTS),
            Ordinary::inside(curve, || PARTS * rng.between(0, 1)),
            Ordinary::inside(curve, || rng.between(0, PARTS)),
        ]
    }
}

/// The Bernstein weights of a degree at upper / lower, each over lower to the power of the degree.
pub struct Bernstein {
    weights: Vec<Natural>,
    lower: Natural,
}

impl Bernstein {
    pub fn at(degree: usize, upper: &Natural, lower: &Natural) -> Bernstein {
        let powers = upper.powers(degree);
        let others = lower.minus(upper).powers(degree);
        let weight = |k: usize| {
            let ways = Natural::from(ways(degree, k) as u32);
            powers[k].times(&others[degree - k]).times(&ways)
        };
        Bernstein {
            weights: (0..=degree).map(weight).collect(),
            lower: lower.powers(degree).remove(degree),
        }
    }

    /// The Bernstein sum of these points.
    fn sum(&self, points: impl Iterator<Item = i64>) -> Integer {
        let mut sum = Integer::zero();
        for (point, weight) in points.zip(&self.weights) {
            sum.add_product(point, weight);
        }
        sum
    }

    /// How the exact side, the Bernstein sum of these points' sides, lies to a whole number.
    pub fn side_beside(&self, points: &[Rectangle], side: usize, number: i64) -> Ordering {
        let exact = self.sum(points.iter().map(|point| point[side]));
        exact.compare(&Integer::product(number, &self.lower))
    }

    /// Whether all sides of a rectangle are the exact ones.
    pub fn equals(&self, points: &[Rectangle], rectangle: &Rectangle) -> bool {
        (0..4).all(|side| self.side_beside(points, side, rectangle[side]).is_eq())
    }

    /// How the ordinary curve's load lies to each of the sides: below it, at it or above it.
    pub fn load_beside(&self, ordinary: &Ordinary, sides: &Rectangle) -> [Ordering; 4] {
        let loads = ordinary
            .0
            .each_ref()
            .map(|points| self.sum(points.iter().copied()));
        std::array::from_fn(|side| {
            loads[side / 2].compare(&Integer::product(PARTS * sides[side], &self.lower))
        })
    }
}

#[cfg(test)]
mod tests {
    use super::*;

    fn natural(number: u128) -> Natural {
        Natural(vec![number as u64, (number >> 64) as u64]).trimmed()
    }

    #[test]
    fn agrees_with_128_bits() {
        let mut rng = Rng::new(1);
        for _ in 0..20_000 {
            let mut below_2_to_63 = || u128::from(rng.draw() >> (1 + rng.below(63)));
            let (a, b, c) = (below_2_to_63(), below_2_to_63(), below_2_to_63());
            let product = a * b;
            assert_eq!(natural(a).times(&natural(b)), natural(product));
            assert_eq!(natural(product).plus(&natural(c)), natural(product + c));
            assert_eq!(natural(product + c).minus(&natural(c)), natural(product));
            assert_eq!(natural(product).cmp(&natural(c)), product.cmp(&c));
        }
    }

    #[test]
    fn carries_through_long_numbers() {
        let most = natural(u64::MAX.into());
        let powers = most.powers(20);
        let product = powers[19].times(&most.plus(&1.into()));
        assert_eq!(product, powers[20].plus(&powers[19]));
        assert_eq!(product.minus(&powers[20]), powers[19]);
        assert_eq!(Natural::from(0).powers(1), [natural(1), natural(0)]);
    }

    /// Values 1, 0, 3 at 1/2 are 1, and the reactances -1, 0, -3 are -1.
    #[test]
    fn knows_an_exact_side_and_a_load() {
        let points = [[1, 1, -1, -1], [0; 4], [3, 3, -3, -3]];
        let weights = Bernstein::at(2, &1.into(), &2.into());
        assert!(weights.equals(&points, &[1, 1, -1, -1]));
        assert!(!weights.equals(&points, &[1, 1, -1, 1]));
        let ordinary = Ordinary::inside(&Curve::new(&points), || 0);
        let beside = weights.load_beside(&ordinary, &[0, 1, -1, 2]);
        use Ordering::*;
        assert_eq!(beside, [Greater, Equal, Equal, Less]);
    }
}
