//! The curve and what is done with it: document 01's operations in ordinary 64-bit arithmetic, with the
//! exact flag of document 02's point 1, the second reading of its point 4 and the sum of steps of its point 7.
//! The definitions keep to the papers' words, since this is what the proved code is compared with.

/// The largest side, in steps of 1/1,024 ohm; the least is its negative.
pub const MAX_SIDE: i64 = 16_777_216;
pub const MAX_DEGREE: usize = 8;
/// The places of a curve's record: one for each control point of the highest degree.
pub const PLACES: usize = MAX_DEGREE + 1;
pub const MAX_DEN: u32 = 65_536;
/// The largest sum of steps.
pub const MAX_SUM: usize = 65_535;
/// The places of the second reading are j/16, for j from 0 to 16.
pub const SIXTEENTHS: u32 = 16;

/// Resistance low, resistance high, reactance low, reactance high.
pub type Rectangle = [i64; 4];

/// A degree, a sum of steps and the control points; the places past the degree are zero. Two curves are
/// equal if all three are.
#[derive(Clone, Copy, PartialEq, Debug)]
pub struct Curve {
    pub degree: usize,
    pub sum: u16,
    pub points: [Rectangle; PLACES],
}

/// The fraction num/den at which a curve is evaluated or subdivided.
#[derive(Clone, Copy, PartialEq, Debug)]
pub struct Parameter {
    pub num: u32,
    pub den: u32,
}

/// What an operation gives, and its exact flag (the paper's lamp): whether every affine map that it
/// made, of low and high sides, left no remainder.
#[derive(Clone, Copy, PartialEq, Debug)]
pub struct Flagged<T> {
    pub result: T,
    pub exact: bool,
}

#[derive(Clone, Copy, PartialEq, Debug)]
pub struct Refusal {
    pub number: u32,
    pub place: usize,
}

/// The refusal under its number, where the condition holds.
pub fn refuse_if(condition: bool, number: u32, place: usize) -> Result<(), Refusal> {
    if condition {
        return Err(Refusal { number, place });
    }
    Ok(())
}

impl Curve {
    pub const ZERO: Curve = Curve {
        degree: 0,
        sum: 0,
        points: [[0; 4]; PLACES],
    };

    /// The curve with these control points and a sum of 0.
    pub fn new(points: &[Rectangle]) -> Curve {
        let mut curve = Curve::ZERO;
        curve.degree = points.len() - 1;
        curve.points[..points.len()].copy_from_slice(points);
        curve
    }

    /// Control points 0 to n.
    pub fn control_points(&self) -> &[Rectangle] {
        &self.points[..=self.degree]
    }

    /// Refusals 1 to 3: 2 over all rectangles, then 3 over all.
    pub fn check(&self) -> Result<(), Refusal> {
        refuse_if(self.degree < 1 || self.degree > MAX_DEGREE, 1, 0)?;
        for (k, rectangle) in self.control_points().iter().enumerate() {
            refuse_if(out_of_range(rectangle), 2, k)?;
        }
        for (k, rectangle) in self.control_points().iter().enumerate() {
            refuse_if(low_above_high(rectangle), 3, k)?;
        }
        Ok(())
    }

    /// The curve with another sum of steps.
    pub fn with_sum(self, sum: u16) -> Curve {
        Curve { sum, ..self }
    }

    /// The sum with some steps more, or refusal 17 where it would pass the largest.
    pub fn sum_after(&self, steps: usize) -> Result<u16, Refusal> {
        let sum = usize::from(self.sum) + steps;
        refuse_if(sum > MAX_SUM, 17, 0)?;
        Ok(sum as u16)
    }

    /// The load at a parameter (the paper's reading): what the last stage has left.
    pub fn evaluate(&self, t: Parameter) -> Result<Flagged<Rectangle>, Refusal> {
        self.check()?;
        t.check()?;
        let ([left, _], exact) = self.edges(t);
        let result = left[self.degree];
        Ok(Flagged { result, exact })
    }

    /// The load at j/16 by one sum: the weighted sides over 16 to the power n, a low side rounded down and a
    /// high side rounded up. The flag tells whether no division left a remainder.
    pub fn evaluate_sixteenths(&self, j: u32) -> Result<Flagged<Rectangle>, Refusal> {
        self.check()?;
        refuse_if(j > SIXTEENTHS, 15, 0)?;
        let weights = weights(self.degree, j);
        let sum = |side: usize| {
            let products = self.points.iter().zip(weights);
            products.map(|(point, weight)| weight * point[side]).sum()
        };
        let lower = i64::from(SIXTEENTHS).pow(self.degree as u32);
        Ok(outward([0, 1, 2, 3].map(sum), lower))
    }

    /// The left piece and the right piece (the paper's cut), both with the curve's sum plus its degree.
    pub fn subdivide(&self, t: Parameter) -> Result<Flagged<[Curve; 2]>, Refusal> {
        self.check()?;
        t.check()?;
        let (degree, sum) = (self.degree, self.sum_after(self.degree)?);
        let piece = |points| Curve {
            degree,
            sum,
            points,
        };
        let (edges, exact) = self.edges(t);
        let result = edges.map(piece);
        Ok(Flagged { result, exact })
    }

    /// The first rectangle of each stage of de Casteljau's table, the last of each stage from the last stage
    /// back, and whether no map left a remainder.
    fn edges(&self, t: Parameter) -> ([[Rectangle; PLACES]; 2], bool) {
        let n = self.degree;
        let (mut left, mut right, mut stage) = (self.points, self.points, self.points);
        let mut exact = true;
        for s in 1..=n {
            // Stage s has the affine maps of the neighbours in the stage before, and ends at n - s.
            for k in 0..=n - s {
                let map = affine(t, &stage[k], &stage[k + 1]);
                stage[k] = map.result;
                exact &= map.exact;
            }
            left[s] = stage[0];
            right[n - s] = stage[n - s];
        }
        ([left, right], exact)
    }

    /// The same curve by control points of one degree more (the paper's raising), with a sum of one more.
    pub fn elevate(&self) -> Result<Flagged<Curve>, Refusal> {
        self.check()?;
        refuse_if(self.degree == MAX_DEGREE, 6, 0)?;
        let n = self.degree;
        let mut result = Curve::ZERO;
        result.degree = n + 1;
        result.sum = self.sum_after(1)?;
        let mut exact = true;
        for k in 0..=n + 1 {
            let before = if k == 0 { [0; 4] } else { self.points[k - 1] };
            let here = if k == n + 1 { [0; 4] } else { self.points[k] };
            let map = weighted(k as i64, &before, (n + 1 - k) as i64, &here);
            result.points[k] = map.result;
            exact &= map.exact;
        }
        Ok(Flagged { result, exact })
    }

    /// The least rectangle that holds all control points (the paper's span).
    pub fn bounds(&self) -> Result<Rectangle, Refusal> {
        self.check()?;
        let mut span = self.points[0];
        for point in self.control_points() {
            for low in [0, 2] {
                span[low] = span[low].min(point[low]);
                span[low + 1] = span[low + 1].max(point[low + 1]);
            }
        }
        Ok(span)
    }
}

impl Parameter {
    /// Refusals 4 and 5.
    pub fn check(&self) -> Result<(), Refusal> {
        refuse_if(self.den < 1 || self.den > MAX_DEN, 4, 0)?;
        refuse_if(self.num > self.den, 5, 0)
    }
}

pub fn out_of_range(rectangle: &Rectangle) -> bool {
    rectangle
        .iter()
        .any(|side| *side < -MAX_SIDE || *side > MAX_SIDE)
}

pub fn low_above_high(rectangle: &Rectangle) -> bool {
    rectangle[0] > rectangle[1] || rectangle[2] > rectangle[3]
}

/// The affine map of two rectangles.
fn affine(t: Parameter, a: &Rectangle, b: &Rectangle) -> Flagged<Rectangle> {
    weighted((t.den - t.num).into(), a, t.num.into(), b)
}

/// (p × a + q × b) / (p + q) of all four sides, rounded outward.
fn weighted(p: i64, a: &Rectangle, q: i64, b: &Rectangle) -> Flagged<Rectangle> {
    let sum = |side: usize| p * a[side] + q * b[side];
    outward([0, 1, 2, 3].map(sum), p + q)
}

/// Four sides over a number above 0, low sides rounded down and high sides up, and whether no division left a
/// remainder.
fn outward(sides: [i64; 4], lower: i64) -> Flagged<Rectangle> {
    let low = |side: usize| sides[side].div_euclid(lower);
    let high = |side: usize| -(-sides[side]).div_euclid(lower);
    Flagged {
        result: [low(0), high(1), low(2), high(3)],
        exact: sides.iter().all(|side| side.rem_euclid(lower) == 0),
    }
}

/// The weights of a degree at j/16: the number of ways to choose k from n, times (16 - j) to the power
/// n - k, times j to the power k, where 0 to the power 0 is 1. Those past the degree are 0.
pub fn weights(degree: usize, j: u32) -> [i64; PLACES] {
    let (to_the_end, from_the_start) = (i64::from(SIXTEENTHS - j), i64::from(j));
    let mut weights = [0; PLACES];
    for (k, weight) in weights[..=degree].iter_mut().enumerate() {
        let powers = to_the_end.pow((degree - k) as u32) * from_the_start.pow(k as u32);
        *weight = ways(degree, k) * powers;
    }
    weights
}

/// The number of ways to choose k from n.
pub fn ways(n: usize, k: usize) -> i64 {
    (0..k).fold(1, |ways, i| ways * (n - i) as i64 / (i as i64 + 1))
}

/// The bits of the single-precision number side / 1,024, for a side in range: a sign, eight bits of
/// exponent with 127 added, and the 23 bits after the leading one. A zero has none of them set.
pub fn ohm_bits(side: i64) -> u32 {
    let size = side.unsigned_abs() as u32;
    if size == 0 {
        return 0;
    }
    let leading = size.ilog2();
    let after = ((u64::from(size) << 23) >> leading) as u32;
    let sign = u32::from(side < 0);
    (sign << 31) | ((leading + 127 - 10) << 23) | (after & 0x007f_ffff)
}

#[cfg(test)]
mod tests {
    use super::*;

    /// A curve of one coordinate with low equal to high; the other coordinate is 0.
    fn values(resistances: &[i64]) -> Curve {
        let rectangles: Vec<Rectangle> = resistances.iter().map(|v| [*v, *v, 0, 0]).collect();
        Curve::new(&rectangles)
    }

    fn at(num: u32, den: u32) -> Parameter {
        Parameter { num, den }
    }

    fn read(curve: &Curve, num: u32, den: u32) -> (Rectangle, bool) {
        let read = curve.evaluate(at(num, den)).unwrap();
        (read.result, read.exact)
    }

    fn number<T>(answer: Result<T, Refusal>) -> u32 {
        answer.err().map_or(0, |refusal| refusal.number)
    }

    #[test]
    fn evaluates_in_rounded_stages() {
        let curve = values(&[1, 0, 3]);
        assert_eq!(read(&curve, 1, 2), ([0, 2, 0, 0], false));
        assert_eq!(read(&curve, 0, 1), ([1, 1, 0, 0], true));
        assert_eq!(read(&curve, 7, 7), ([3, 3, 0, 0], true));
        let card = Curve::new(&[[0, 1, -3, -3], [1, 3, 0, 2]]);
        assert_eq!(read(&card, 1, 2), ([0, 2, -2, 0], false));
        assert_eq!(read(&card, 2, 4), ([0, 2, -2, 0], false));
        assert_eq!(card.bounds(), Ok([0, 3, -3, 2]));
        assert_eq!(read(&values(&[0, 4]), 2, 8), ([1, 1, 0, 0], true));
    }

    #[test]
    fn evaluates_a_sum_that_is_rounded_once() {
        let read = |curve: &Curve, j| {
            let read = curve.evaluate_sixteenths(j).unwrap();
            (read.result, read.exact)
        };
        let curve = values(&[1, 0, 3]);
        assert_eq!(read(&curve, 8), ([1, 1, 0, 0], true));
        // (9 × 9 + 7 × 7 × 3) / 256 is 228/256.
        assert_eq!(read(&curve, 7), ([0, 1, 0, 0], false));
        assert_eq!(read(&values(&[-1, 0, -3]), 7), ([-1, 0, 0, 0], false));
        assert_eq!(read(&curve, 16), ([3, 3, 0, 0], true));
        assert_eq!(number(curve.evaluate_sixteenths(17)), 15);
        assert_eq!(weights(3, 4)[..5], [1_728, 1_728, 576, 64, 0]);
        assert_eq!(weights(8, 16)[7..], [0, 1 << 32]);
    }

    #[test]
    fn subdivides_into_the_two_edges_of_the_table() {
        let intervals = |points: [[i64; 2]; 3]| {
            let points = points.map(|[low, high]| [low, high, 0, 0]);
            Curve::new(&points).with_sum(9)
        };
        let cut = values(&[1, 0, 3]).with_sum(7).subdivide(at(1, 2));
        let left = intervals([[1, 1], [0, 1], [0, 2]]);
        let right = intervals([[0, 2], [1, 2], [3, 3]]);
        assert_eq!(cut.unwrap().result, [left, right]);
    }

    #[test]
    fn elevates_rounding_once() {
        let raised = values(&[0, 1]).with_sum(7).elevate().unwrap().result;
        let points = [[0; 4], [0, 1, 0, 0], [1, 1, 0, 0]];
        assert_eq!(raised, Curve::new(&points).with_sum(8));
        let raised = values(&[0, 0, -1]).elevate().unwrap().result;
        assert_eq!(raised.points[2], [-1, 0, 0, 0]);
        assert_eq!(number(values(&[0; PLACES]).elevate()), 6);
    }

    #[test]
    fn refuses_in_the_order_of_the_paper() {
        assert_eq!(number(values(&[16_777_216, 0]).bounds()), 0);
        assert_eq!(number(values(&[16_777_217, 0]).bounds()), 2);
        let refused = |number, place| Err(Refusal { number, place });
        let both = Curve::new(&[[1, 0, 0, 0], [0, 0, 0, MAX_SIDE + 1]]);
        assert_eq!(both.evaluate(at(1, 0)), refused(2, 1));
        let crossed = Curve::new(&[[0, 0, 0, 0], [0, 0, 0, 0], [0, 0, 1, 0]]);
        assert_eq!(crossed.evaluate(at(1, 0)), refused(3, 2));
        let line = values(&[0, 0]).with_sum(65_535);
        let parameters = [(1, 65_536), (0, 0), (0, 65_537), (1, 0), (8, 7)];
        let refusals = parameters.map(|(num, den)| number(line.evaluate(at(num, den))));
        assert_eq!(refusals, [0, 4, 4, 4, 5]);
        assert_eq!(number(line.subdivide(at(1, 2))), 17);
        assert_eq!(number(line.elevate()), 17);
        assert_eq!(number(line.with_sum(65_534).subdivide(at(1, 2))), 0);
    }

    #[test]
    fn gives_ohms_with_nothing_lost() {
        let powers = (1..=24).flat_map(|power| [(1 << power) - 1, 1 << power]);
        for side in powers.flat_map(|side: i64| [side, -side]).chain([0]) {
            let ohms = f32::from_bits(ohm_bits(side));
            assert_eq!(f64::from(ohms), side as f64 / 1_024.0, "{side}");
        }
    }
}
