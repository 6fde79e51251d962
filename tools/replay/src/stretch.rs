//! The stretch of the starting curve that is left, and the places on it.

use std::fmt;

use crate::natural::Natural;

/// Which piece of a cut is kept.
#[derive(Clone, Copy, PartialEq, Debug)]
pub enum Kept {
    Left,
    Right,
}

/// The largest number that a place is shown with: twenty digits, which have at most 67 bits.
const LARGEST: u128 = 99_999_999_999_999_999_999;
const LARGEST_BITS: usize = 67;

/// A place on the starting curve, in lowest terms.
#[derive(PartialEq, Debug)]
pub struct Place {
    upper: u128,
    lower: u128,
}

impl Place {
    /// The fraction upper/lower, which is at most 1, in lowest terms, if these have at most twenty digits.
    /// Euclid's algorithm builds them up from its quotients, and is given up once they are longer.
    fn of(upper: Natural, lower: Natural) -> Option<Place> {
        let (mut dividend, mut divisor) = (upper, lower);
        let mut before = Place { upper: 0, lower: 1 };
        let mut last = Place { upper: 1, lower: 0 };
        while !divisor.is_zero() {
            let (quotient, rest) = dividend.divided(&divisor, LARGEST_BITS)?;
            let next = Place {
                upper: quotient
                    .checked_mul(last.upper)?
                    .checked_add(before.upper)?,
                lower: quotient
                    .checked_mul(last.lower)?
                    .checked_add(before.lower)?,
            };
            if next.lower > LARGEST {
                return None;
            }
            (before, last) = (last, next);
            (dividend, divisor) = (divisor, rest);
        }
        Some(last)
    }
}

impl fmt::Display for Place {
    fn fmt(&self, f: &mut fmt::Formatter) -> fmt::Result {
        write!(f, "{}/{}", self.upper, self.lower)
    }
}

/// The stretch of the starting curve that is left, its start and width over one lower number. They
/// are kept exactly however long they grow, because a short place can come after any list of cuts:
/// the end of a right piece is always that of its parent.
pub struct Stretch {
    start: Natural,
    width: Natural,
    lower: Natural,
}

impl Stretch {
    pub fn whole() -> Stretch {
        Stretch {
            start: Natural::from(0),
            width: Natural::from(1),
            lower: Natural::from(1),
        }
    }

    /// Keeps one piece of a cut at num/den, an accepted parameter.
    pub fn cut(&mut self, num: u32, den: u32, kept: Kept) {
        let start = self.start.times(den);
        match kept {
            Kept::Left => {
                self.start = start;
                self.width = self.width.times(num);
            }
            Kept::Right => {
                self.start = start.plus(&self.width.times(num));
                self.width = self.width.times(den - num);
            }
        }
        self.lower = self.lower.times(den);
    }

    /// The place of num/den, an accepted parameter, if it can be shown.
    pub fn place(&self, num: u32, den: u32) -> Option<Place> {
        let upper = self.start.times(den).plus(&self.width.times(num));
        Place::of(upper, self.lower.times(den))
    }
}

#[cfg(test)]
mod tests {
    use super::*;

    fn shown(stretch: &Stretch, num: u32, den: u32) -> Option<String> {
        stretch.place(num, den).map(|place| place.to_string())
    }

    #[test]
    fn shows_places_in_lowest_terms() {
        let mut stretch = Stretch::whole();
        assert_eq!(shown(&stretch, 2, 4).unwrap(), "1/2");
        stretch.cut(2, 6, Kept::Right);
        stretch.cut(1, 4, Kept::Left);
        // From 1/3 on, two thirds wide, a quarter of that kept: 1/3 to 1/2.
        assert_eq!(shown(&stretch, 0, 9).unwrap(), "1/3");
        assert_eq!(shown(&stretch, 1, 2).unwrap(), "5/12");
        assert_eq!(shown(&stretch, 65_536, 65_536).unwrap(), "1/2");
    }

    #[test]
    fn keeps_nothing_but_a_point_after_a_cut_at_an_end() {
        let mut stretch = Stretch::whole();
        stretch.cut(0, 5, Kept::Left);
        assert_eq!(shown(&stretch, 3, 7).unwrap(), "0/1");
        let mut stretch = Stretch::whole();
        stretch.cut(5, 5, Kept::Right);
        stretch.cut(1, 3, Kept::Left);
        assert_eq!(shown(&stretch, 3, 7).unwrap(), "1/1");
    }

    #[test]
    fn shows_up_to_twenty_digits() {
        let mut stretch = Stretch::whole();
        for _ in 0..4 {
            stretch.cut(1, 65_536, Kept::Left);
        }
        // 2 to the power 66 has twenty digits, 2 to the power 67 has twenty-one.
        assert_eq!(shown(&stretch, 1, 4).unwrap(), "1/73786976294838206464");
        assert_eq!(shown(&stretch, 1, 8), None);
    }

    #[test]
    fn finds_a_short_place_after_long_ones() {
        let mut stretch = Stretch::whole();
        for den in (60_000..65_536).step_by(7) {
            stretch.cut(1, den, Kept::Right);
            stretch.cut(den - 2, den - 1, Kept::Left);
        }
        // Each pair of cuts leaves the stretch with the same middle.
        assert_eq!(shown(&stretch, 1, 3), None);
        assert_eq!(shown(&stretch, 1, 2).unwrap(), "1/2");
    }
}
