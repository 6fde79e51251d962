//! Interval Bézier curves as the calls have them, and the proved calls on them.

use crate::{raw, Choice, Refusal, Setting, CHOICE_LENGTH};

/// The highest degree of a curve.
pub const MAX_DEGREE: u32 = 8;

/// The rectangles that a curve's record has places for.
pub const PLACES: usize = 9;

/// The farthest that a side may be from zero, in steps.
pub const MAX_SIDE: i32 = 16_777_216;

/// The largest den of a parameter.
pub const MAX_DEN: u32 = 65_536;

/// The places j/16 of a reading by one sum go up to this j.
pub const SIXTEENTHS: u32 = 16;

/// The numbers of a rectangle.
pub const RECT_LENGTH: usize = 4;

/// The numbers of a curve of the highest degree.
pub const CURVE_LENGTH: usize = curve_length(MAX_DEGREE);

/// Where the degree of a curve stands, its sum of steps, and the first of its sides.
const DEGREE: usize = 0;
const SUM: usize = 1;
const SIDES: usize = 2;

/// The numbers of a verdict.
pub const VERDICT_LENGTH: usize = 4;

/// The bytes of a card of the highest degree.
pub const CARD_LENGTH: usize = card_length(MAX_DEGREE);

/// The exact flag of a call that gave some side that is not the exact one.
const ROUNDED: u32 = 0;

/// The numbers of a curve of this degree.
pub const fn curve_length(degree: u32) -> usize {
    SIDES + RECT_LENGTH * (degree as usize + 1)
}

/// The bytes of the card of a curve of this degree.
pub const fn card_length(degree: u32) -> usize {
    11 + 41 * (degree as usize + 1)
}

/// A low and a high side, in steps of 1/1,024 ohm.
#[repr(C)]
#[derive(Clone, Copy, PartialEq, Eq, Debug, Default)]
pub struct Interval {
    pub low: i32,
    pub high: i32,
}

/// A load known within margins, both ends included; or the relay limits of a search, whose high sides are the
/// first values not allowed. Its sides lie in memory in the header's order, as a setting of a list needs.
#[repr(C)]
#[derive(Clone, Copy, PartialEq, Eq, Debug, Default)]
pub struct Rect {
    pub resistance: Interval,
    pub reactance: Interval,
}

impl From<[i32; RECT_LENGTH]> for Rect {
    /// Resistance low and high, then reactance low and high.
    #[inline]
    fn from([r_low, r_high, x_low, x_high]: [i32; RECT_LENGTH]) -> Rect {
        Rect {
            resistance: Interval {
                low: r_low,
                high: r_high,
            },
            reactance: Interval {
                low: x_low,
                high: x_high,
            },
        }
    }
}

impl From<Rect> for [i32; RECT_LENGTH] {
    #[inline]
    fn from(rect: Rect) -> [i32; RECT_LENGTH] {
        let Rect {
            resistance,
            reactance,
        } = rect;
        [
            resistance.low,
            resistance.high,
            reactance.low,
            reactance.high,
        ]
    }
}

/// A curve as the calls take it and give it: its degree n, its sum of steps, then the sides of its rectangles 0 to
/// n. The calls test all of it, and do not read the numbers past rectangle n.
///
/// A card's curve has the sum 0, a cut adds the degree and a raising 1. For any curve reached by these from one
/// with the sum 0, no side is farther out than the same steps without rounding give by more than the sum, and
/// none lies short.
#[derive(Clone, Copy, Debug)]
pub struct Curve {
    pub numbers: [i32; CURVE_LENGTH],
}

impl Default for Curve {
    /// All zero, which is no curve: its degree is refused.
    #[inline]
    fn default() -> Curve {
        let numbers = [0; CURVE_LENGTH];
        Curve { numbers }
    }
}

/// Two curves are equal if their degrees, their sums and their rectangles 0 to n are.
impl PartialEq for Curve {
    fn eq(&self, other: &Curve) -> bool {
        let read = curve_length(self.degree().min(MAX_DEGREE));
        self.numbers[..read] == other.numbers[..read]
    }
}

impl Eq for Curve {}

/// The load at a parameter, in steps and, with nothing lost, in ohms. It is exact where nothing was
/// rounded: its sides are then the exact ones of the curve that was evaluated.
#[derive(Clone, Copy, PartialEq, Debug, Default)]
pub struct Evaluation {
    pub load: Rect,
    pub ohms: [f32; RECT_LENGTH],
    pub exact: bool,
}

/// The pieces of a curve up to a parameter and from there on, each with the curve's sum plus its degree. They
/// are exact where nothing was rounded, as the load at that parameter then is too.
#[derive(Clone, Copy, PartialEq, Eq, Debug, Default)]
pub struct Subdivision {
    pub left: Curve,
    pub right: Curve,
    pub exact: bool,
}

/// A curve with its degree and its sum raised by one, exact where nothing was rounded.
#[derive(Clone, Copy, PartialEq, Eq, Debug, Default)]
pub struct Elevation {
    pub curve: Curve,
    pub exact: bool,
}

/// What a search over a box found, with the number of pieces looked at.
#[derive(Clone, Copy, PartialEq, Eq, Debug)]
pub enum Verdict {
    /// Every load lies in the box: at or above its low sides and strictly below its high sides.
    Inside { count: u32 },
    /// No load lies in the box on this piece's stretch.
    Outside { depth: u32, index: u32, count: u32 },
    /// The budget was used up before all was decided.
    Spent { count: u32 },
    /// At the depth limit some pieces are neither in nor out; this is the first.
    Undecided { depth: u32, index: u32, count: u32 },
}

impl Verdict {
    /// The verdict of a call that was not refused, from its four numbers.
    fn of([number, depth, index, count]: [u32; VERDICT_LENGTH]) -> Verdict {
        match number {
            1 => Verdict::Inside { count },
            2 => Verdict::Outside {
                depth,
                index,
                count,
            },
            3 => Verdict::Spent { count },
            4 => Verdict::Undecided {
                depth,
                index,
                count,
            },
            _ => unreachable!("the search answered the verdict {number}, which is not 1 to 4"),
        }
    }
}

impl Evaluation {
    /// What either reading stores.
    #[inline]
    fn of(
        read: impl FnOnce(&mut [i32], &mut [f32], &mut u32) -> u64,
    ) -> Result<Evaluation, Refusal> {
        let (mut load, mut ohms, mut exact) = ([0; RECT_LENGTH], [0.0; RECT_LENGTH], ROUNDED);
        Refusal::check(read(&mut load, &mut ohms, &mut exact))?;
        Ok(Evaluation {
            load: load.into(),
            ohms,
            exact: exact != ROUNDED,
        })
    }
}

impl Curve {
    /// The curve of some rectangles with the sum 0. Their count tells the degree, which is refused where they are
    /// fewer than two or more than nine.
    pub fn new(points: &[Rect]) -> Curve {
        let mut curve = Curve::default();
        curve.numbers[DEGREE] = points.len().min(PLACES + 1) as i32 - 1;
        let sides = points.iter().copied().flat_map(<[i32; RECT_LENGTH]>::from);
        for (number, side) in curve.numbers[SIDES..].iter_mut().zip(sides) {
            *number = side;
        }
        curve
    }

    /// The same curve with another sum of steps.
    #[inline]
    pub fn with_sum(mut self, sum: u16) -> Curve {
        self.numbers[SUM] = sum.into();
        self
    }

    /// The degree. A number below 0 counts as 0, which is refused alike.
    #[inline]
    pub fn degree(&self) -> u32 {
        self.numbers[DEGREE].max(0) as u32
    }

    /// The sum of steps. A number outside 0 to 65,535 counts as 65,535.
    #[inline]
    pub fn sum(&self) -> u16 {
        u16::try_from(self.numbers[SUM]).unwrap_or(u16::MAX)
    }

    /// The rectangles 0 to n.
    pub fn control_points(&self) -> impl Iterator<Item = Rect> + '_ {
        let places = self.numbers[SIDES..].chunks_exact(RECT_LENGTH);
        let points = places.map(|four| Rect::from([four[0], four[1], four[2], four[3]]));
        points.take(self.degree() as usize + 1)
    }

    /// The load at num/den, and whether it is exact.
    #[inline]
    pub fn evaluate(&self, num: u32, den: u32) -> Result<Evaluation, Refusal> {
        Evaluation::of(|load, ohms, exact| {
            raw::evaluate(&self.numbers, num, den, load, ohms, exact)
        })
    }

    /// The load at j/16, for j from 0 to 16, by the whole Bernstein sum rounded outward once: it lies inside
    /// the one that `evaluate` gives there, and no side lies a whole step from the exact one.
    #[inline]
    pub fn evaluate_sixteenths(&self, j: u32) -> Result<Evaluation, Refusal> {
        Evaluation::of(|load, ohms, exact| {
            raw::evaluate_sixteenths(&self.numbers, j, load, ohms, exact)
        })
    }

    /// The pieces up to num/den and from there on, and whether they are exact.
    #[inline]
    pub fn subdivide(&self, num: u32, den: u32) -> Result<Subdivision, Refusal> {
        let (mut pieces, mut exact) = (Subdivision::default(), ROUNDED);
        let (left, right) = (&mut pieces.left.numbers, &mut pieces.right.numbers);
        let answer = raw::subdivide(&self.numbers, num, den, left, right, &mut exact);
        Refusal::check(answer)?;
        pieces.exact = exact != ROUNDED;
        Ok(pieces)
    }

    /// The curve with its degree raised by one, and whether it is exact.
    #[inline]
    pub fn elevate(&self) -> Result<Elevation, Refusal> {
        let (mut raised, mut exact) = (Elevation::default(), ROUNDED);
        let answer = raw::elevate(&self.numbers, &mut raised.curve.numbers, &mut exact);
        Refusal::check(answer)?;
        raised.exact = exact != ROUNDED;
        Ok(raised)
    }

    /// The least rectangle that holds all of the curve's.
    #[inline]
    pub fn bounds(&self) -> Result<Rect, Refusal> {
        let mut rect = [0; RECT_LENGTH];
        Refusal::check(raw::bounds(&self.numbers, &mut rect))?;
        Ok(rect.into())
    }

    /// Whether the curve stays in a box, found by looking at no more than budget pieces, none deeper
    /// than depth.
    #[inline]
    pub fn search(&self, limits: Rect, depth: u32, budget: u32) -> Result<Verdict, Refusal> {
        let limits: [i32; RECT_LENGTH] = limits.into();
        let mut verdict = [0; VERDICT_LENGTH];
        let answer = raw::search(&self.numbers, &limits, depth, budget, &mut verdict);
        Refusal::check(answer)?;
        Ok(Verdict::of(verdict))
    }

    /// The first setting of a list in whose box the curve stays, as `search` with this depth and this
    /// budget finds it: each setting's walk has the whole budget.
    #[inline]
    pub fn choose_setting(
        &self,
        settings: &[Setting],
        depth: u32,
        budget: u32,
    ) -> Result<Choice, Refusal> {
        let mut choice = [0; CHOICE_LENGTH];
        let answer = raw::choose_setting(&self.numbers, settings, depth, budget, &mut choice);
        Refusal::check(answer)?;
        Ok(Choice::of(choice))
    }

    /// The curve of a card, with the sum 0.
    #[inline]
    pub fn read_card(card: &[u8]) -> Result<Curve, Refusal> {
        let mut curve = Curve::default();
        Refusal::check(raw::read_card(card, &mut curve.numbers))?;
        Ok(curve)
    }

    /// Writes the curve's card, which is without its sum, to the front of a buffer, and gives its length.
    #[inline]
    pub fn write_card(&self, card: &mut [u8]) -> Result<usize, Refusal> {
        Refusal::check(raw::write_card(&self.numbers, card))?;
        Ok(card_length(self.degree()))
    }

    /// The curve's card.
    pub fn card(&self) -> Result<Vec<u8>, Refusal> {
        let mut card = vec![0; CARD_LENGTH];
        let length = self.write_card(&mut card)?;
        card.truncate(length);
        Ok(card)
    }
}
