//! The search for where a curve leaves a box (the paper's walk over a box), by document 01's rules and
//! document 02's box, with the pieces that are due on a list; and the choice from the fitted list of relay
//! settings, by document 02's point 6.

use crate::model::{low_above_high, out_of_range, refuse_if, Curve, Parameter, Rectangle, Refusal};

pub const MAX_DEPTH: u32 = 12;
pub const MAX_BUDGET: u32 = 8_191;
const MIDDLE: Parameter = Parameter { num: 1, den: 2 };

/// The verdicts' numbers.
pub const INSIDE: u32 = 1;
pub const OUTSIDE: u32 = 2;
pub const SPENT: u32 = 3;
pub const UNDECIDED: u32 = 4;

/// The depth limit, and the budget of pieces that each search starts with.
#[derive(Clone, Copy, PartialEq, Debug)]
pub struct Effort {
    pub depth: u32,
    pub budget: u32,
}

/// What a search is given beside the curve.
#[derive(Clone, Copy, PartialEq, Debug)]
pub struct Search {
    pub limits: Rectangle,
    pub effort: Effort,
}

struct Piece {
    curve: Curve,
    depth: u32,
    index: u32,
}

impl Piece {
    /// The two halves, the left one last, since the list is taken from its end.
    fn halves(&self) -> Result<[Piece; 2], Refusal> {
        let [left, right] = self.curve.subdivide(MIDDLE)?.result;
        let half = |curve, index| Piece {
            curve,
            depth: self.depth + 1,
            index,
        };
        Ok([half(right, 2 * self.index + 1), half(left, 2 * self.index)])
    }
}

impl Search {
    /// The verdict's number, the depth and the index of its piece, and the number of pieces looked at.
    pub fn over(&self, curve: &Curve) -> Result<[u32; 4], Refusal> {
        curve.check()?;
        refuse_if(is_no_box(&self.limits), 7, 0)?;
        self.effort.check(curve)?;
        self.all_pieces(Piece {
            curve: *curve,
            depth: 0,
            index: 0,
        })
    }

    fn all_pieces(&self, whole: Piece) -> Result<[u32; 4], Refusal> {
        let (mut due, mut count, mut noted) = (vec![whole], 0, None);
        while let Some(piece) = due.pop() {
            if count == self.effort.budget {
                return Ok([SPENT, 0, 0, count]);
            }
            count += 1;
            let (depth, index) = (piece.depth, piece.index);
            let bounds = piece.curve.bounds()?;
            if lies_in(&bounds, &self.limits) {
                continue;
            }
            if have_no_common_point(&bounds, &self.limits) {
                return Ok([OUTSIDE, depth, index, count]);
            }
            if depth < self.effort.depth {
                due.extend(piece.halves()?);
            } else {
                noted = noted.or(Some([UNDECIDED, depth, index]));
            }
        }
        let [verdict, depth, index] = noted.unwrap_or([INSIDE, 0, 0]);
        Ok([verdict, depth, index, count])
    }
}

impl Effort {
    /// Refusals 8 and 9, and 17: the sum that a piece at the depth limit would have is too large.
    fn check(&self, curve: &Curve) -> Result<(), Refusal> {
        refuse_if(self.depth > MAX_DEPTH, 8, 0)?;
        refuse_if(!(1..=MAX_BUDGET).contains(&self.budget), 9, 0)?;
        let steps = self.depth as usize * curve.degree;
        curve.sum_after(steps).map(|_| ())
    }
}

/// Whether a side is out of range, or a low above its high or equal to it.
fn is_no_box(limits: &Rectangle) -> bool {
    let empty = limits[0] == limits[1] || limits[2] == limits[3];
    out_of_range(limits) || low_above_high(limits) || empty
}

/// A box's high sides lie outside the box, its low sides inside.
fn lies_in(span: &Rectangle, limits: &Rectangle) -> bool {
    let resistance = limits[0] <= span[0] && span[1] < limits[1];
    let reactance = limits[2] <= span[2] && span[3] < limits[3];
    resistance && reactance
}

/// Also where the span's low equals the box's high.
fn have_no_common_point(span: &Rectangle, limits: &Rectangle) -> bool {
    let resistance = span[1] < limits[0] || span[0] >= limits[1];
    let reactance = span[3] < limits[2] || span[2] >= limits[3];
    resistance || reactance
}

/// The most records that a list may have.
pub const MAX_RECORDS: usize = 64;

/// A box and a setting number; numbers may repeat.
#[derive(Clone, Copy, PartialEq, Debug)]
pub struct Record {
    pub limits: Rectangle,
    pub number: u16,
}

/// What a choice is given beside the curve.
#[derive(Clone, PartialEq, Debug)]
pub struct Settings {
    pub records: Vec<Record>,
    pub effort: Effort,
}

impl Settings {
    /// The index and the setting number of the first record whose search ends Inside, or none.
    pub fn choose(&self, curve: &Curve) -> Result<Option<(usize, u16)>, Refusal> {
        self.check(curve)?;
        for (index, Record { limits, number }) in self.records.iter().copied().enumerate() {
            let effort = self.effort;
            let [verdict, ..] = Search { limits, effort }.over(curve)?;
            if verdict == INSIDE {
                return Ok(Some((index, number)));
            }
        }
        Ok(None)
    }

    /// Refusal 16 first, then the curve's own, 7 over the whole list, 8, 9 and 17.
    fn check(&self, curve: &Curve) -> Result<(), Refusal> {
        let length = self.records.len();
        refuse_if(!(1..=MAX_RECORDS).contains(&length), 16, length)?;
        curve.check()?;
        for (index, record) in self.records.iter().enumerate() {
            refuse_if(is_no_box(&record.limits), 7, index)?;
        }
        self.effort.check(curve)
    }
}

#[cfg(test)]
mod tests {
    use super::*;

    const HALF: Rectangle = [0, 2, 0, 1];
    const WHOLE: Rectangle = [0, 5, 0, 1];
    const CROSSED: Rectangle = [1, 0, 0, 1];

    fn refused<T>(number: u32, place: usize) -> Result<T, Refusal> {
        Err(Refusal { number, place })
    }

    /// Resistance values 0, 4 and reactance values 0, 0.
    fn searched(limits: Rectangle, depth: u32, budget: u32, sum: u16) -> Result<[u32; 4], Refusal> {
        let effort = Effort { depth, budget };
        let line = Curve::new(&[[0; 4], [4, 4, 0, 0]]).with_sum(sum);
        Search { limits, effort }.over(&line)
    }

    #[test]
    fn ends_as_the_examples_say() {
        assert_eq!(searched(HALF, 2, 5, 0), Ok([2, 1, 1, 5]));
        assert_eq!(searched(HALF, 2, 4, 0), Ok([3, 0, 0, 4]));
        assert_eq!(searched(HALF, 1, 5, 0), Ok([2, 1, 1, 3]));
        assert_eq!(searched(WHOLE, 12, 8_191, 0), Ok([1, 0, 0, 1]));
        // A box has its low sides and not its high ones.
        assert_eq!(searched([0, 5, -1, 0], 0, 1, 0), Ok([2, 0, 0, 1]));
        assert_eq!(searched([0, 4, 0, 1], 0, 1, 0), Ok([4, 0, 0, 1]));
        // At depth 3 three steps are needed, however few pieces are looked at.
        assert_eq!(searched(WHOLE, 3, 1, 65_532), Ok([1, 0, 0, 1]));
        assert_eq!(searched(WHOLE, 3, 1, 65_533), refused(17, 0));
        assert_eq!(searched(CROSSED, 13, 0, 0), refused(7, 0));
        assert_eq!(searched([0, 1, 0, 0], 13, 0, 0), refused(7, 0));
        assert_eq!(searched(HALF, 13, 0, 0), refused(8, 0));
        assert_eq!(searched(HALF, 12, 8_192, 0), refused(9, 0));
    }

    #[test]
    fn is_never_spent_at_the_whole_budget() {
        let (limits, depth, budget) = ([0, 1, 0, 1], 12, 8_191);
        let effort = Effort { depth, budget };
        let searched = Search { limits, effort }.over(&Curve::new(&[[-1, 1, -1, 1]; 9]));
        assert_eq!(searched, Ok([4, 12, 0, 8_191]));
    }

    /// The choice from these boxes; record k has the number 7 + k.
    fn chosen(boxes: &[Rectangle], depth: u32, budget: u32) -> Result<Option<usize>, Refusal> {
        let numbered = (7..).zip(boxes.iter().copied());
        let settings = Settings {
            records: numbered
                .map(|(number, limits)| Record { limits, number })
                .collect(),
            effort: Effort { depth, budget },
        };
        let chosen = settings.choose(&Curve::new(&[[0; 4], [4, 4, 0, 0]]))?;
        let mut named = chosen.iter();
        assert!(named.all(|(index, number)| usize::from(*number) == 7 + index));
        Ok(chosen.map(|(index, _)| index))
    }

    #[test]
    fn chooses_the_first_that_fits() {
        assert_eq!(chosen(&[WHOLE], 0, 1), Ok(Some(0)));
        assert_eq!(chosen(&[HALF, WHOLE, WHOLE], 0, 1), Ok(Some(1)));
        assert_eq!(chosen(&[HALF; 64], 2, 5), Ok(None));
        // Spent and Undecided are no fits, and each search has the whole budget.
        assert_eq!(chosen(&[HALF, [0, 4, 0, 1]], 0, 4), Ok(None));
        assert_eq!(chosen(&[HALF, [4, 5, 0, 1], WHOLE], 1, 3), Ok(Some(2)));
        assert_eq!(chosen(&[], 13, 0), refused(16, 0));
        assert_eq!(chosen(&[CROSSED; 65], 13, 0), refused(16, 65));
        assert_eq!(chosen(&[WHOLE, CROSSED, CROSSED], 13, 0), refused(7, 1));
        assert_eq!(chosen(&[WHOLE; 64], 13, 0), refused(8, 0));
    }
}
