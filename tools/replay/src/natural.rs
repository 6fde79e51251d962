//! Whole numbers of any size, as far as the stretch needs them.

use std::cmp::Ordering;

/// A whole number from 0 on, in digits of 32 bits, the lowest first; the highest is not 0.
#[derive(Clone, PartialEq, Eq, Debug)]
pub struct Natural {
    digits: Vec<u32>,
}

impl From<u32> for Natural {
    fn from(number: u32) -> Natural {
        Natural::of(vec![number])
    }
}

impl Ord for Natural {
    fn cmp(&self, other: &Natural) -> Ordering {
        let lengths = self.digits.len().cmp(&other.digits.len());
        lengths.then_with(|| self.digits.iter().rev().cmp(other.digits.iter().rev()))
    }
}

impl PartialOrd for Natural {
    fn partial_cmp(&self, other: &Natural) -> Option<Ordering> {
        Some(self.cmp(other))
    }
}

impl Natural {
    fn of(mut digits: Vec<u32>) -> Natural {
        while digits.last() == Some(&0) {
            digits.pop();
        }
        Natural { digits }
    }

    pub fn is_zero(&self) -> bool {
        self.digits.is_empty()
    }

    pub fn times(&self, factor: u32) -> Natural {
        let mut carry = 0;
        let mut digits = Vec::with_capacity(self.digits.len() + 1);
        for digit in &self.digits {
            carry += u64::from(*digit) * u64::from(factor);
            digits.push(carry as u32);
            carry >>= u32::BITS;
        }
        digits.push(carry as u32);
        Natural::of(digits)
    }

    pub fn plus(&self, other: &Natural) -> Natural {
        let length = self.digits.len().max(other.digits.len()) + 1;
        let mut carry = 0;
        let mut digits = Vec::with_capacity(length);
        for k in 0..length {
            carry += u64::from(self.digit(k)) + u64::from(other.digit(k));
            digits.push(carry as u32);
            carry >>= u32::BITS;
        }
        Natural::of(digits)
    }

    /// The quotient and the rest by a divisor other than 0, if the quotient has at most so many bits;
    /// it may be given with one bit more.
    pub fn divided(&self, divisor: &Natural, bits: usize) -> Option<(u128, Natural)> {
        let shift = self.bits().saturating_sub(divisor.bits());
        if shift > bits {
            return None;
        }
        let mut quotient = 0;
        let mut rest = self.clone();
        for shift in (0..=shift).rev() {
            let part = divisor.shifted(shift);
            if part <= rest {
                rest = rest.minus(&part);
                quotient |= 1 << shift;
            }
        }
        Some((quotient, rest))
    }

    /// The number less another one, which is no larger.
    fn minus(&self, other: &Natural) -> Natural {
        let mut borrow = false;
        let mut digits = Vec::with_capacity(self.digits.len());
        for (k, digit) in self.digits.iter().enumerate() {
            let (less, under) = digit.overflowing_sub(other.digit(k));
            let (less, under_again) = less.overflowing_sub(borrow.into());
            digits.push(less);
            borrow = under || under_again;
        }
        Natural::of(digits)
    }

    /// The number times a power of two.
    fn shifted(&self, bits: usize) -> Natural {
        let mut digits = vec![0; bits / u32::BITS as usize];
        digits.extend(self.times(1 << (bits % u32::BITS as usize)).digits);
        Natural::of(digits)
    }

    fn bits(&self) -> usize {
        let unused = self.digits.last().map_or(0, |digit| digit.leading_zeros());
        self.digits.len() * u32::BITS as usize - unused as usize
    }

    fn digit(&self, k: usize) -> u32 {
        self.digits.get(k).copied().unwrap_or(0)
    }
}

#[cfg(test)]
mod tests {
    use super::*;

    fn power(base: u32, exponent: u32) -> Natural {
        (0..exponent).fold(Natural::from(1), |power, _| power.times(base))
    }

    #[test]
    fn adds_with_a_carry_through_every_digit() {
        let all_ones = power(2, 96).minus(&Natural::from(1));
        assert_eq!(all_ones.digits, [u32::MAX; 3]);
        assert_eq!(all_ones.plus(&Natural::from(1)), power(2, 96));
        assert!(all_ones < power(2, 96));
    }

    #[test]
    fn divides_numbers_of_many_digits() {
        let divisor = power(10, 60);
        let rest = power(10, 59).plus(&Natural::from(7));
        for quotient in [0, 1, 2, 999, u32::MAX] {
            let number = divisor.times(quotient).plus(&rest);
            let expected = Some((quotient.into(), rest.clone()));
            assert_eq!(number.divided(&divisor, 32), expected);
        }
        let (quotient, rest) = power(10, 78).divided(&divisor, 60).unwrap();
        assert_eq!((quotient, rest.is_zero()), (10_u128.pow(18), true));
        assert_eq!(power(10, 80).divided(&divisor, 60), None);
    }

    #[test]
    fn knows_zero() {
        let zero = Natural::from(0);
        assert_eq!(Natural::from(7).times(0), zero);
        assert_eq!(power(7, 40).minus(&power(7, 40)), zero);
        assert_eq!(zero.divided(&power(7, 40), 0), Some((0, zero.clone())));
    }
}
