//! A case as it runs: the curve that is left, the stretch that it covers, and the answer to each call.

use jusqani::{
    Choice, Curve, Elevation, Evaluation, Rect, Refusal, Setting, Subdivision, Verdict, SIXTEENTHS,
};

use crate::call::Call;
use crate::columns::columns_of;
use crate::stretch::{Kept, Place, Stretch};

/// The numbers of an answer, and the place of an accepted reading where it is shown.
#[derive(PartialEq, Debug)]
pub struct Answer {
    numbers: Vec<i64>,
    place: Option<Place>,
}

impl Answer {
    fn of(numbers: Vec<i64>) -> Answer {
        Answer {
            numbers,
            place: None,
        }
    }

    fn refused(refusal: Refusal) -> Answer {
        Answer::of(vec![refusal.number.into(), refusal.place.into()])
    }

    /// The answer's line.
    pub fn line(&self) -> String {
        let columns = columns_of(&self.numbers);
        match &self.place {
            Some(place) => format!("{columns}  {place}\n"),
            None => format!("{columns}\n"),
        }
    }
}

/// What a case holds between two lines. The stretch is there where places are asked for.
pub struct Session {
    curve: Curve,
    stretch: Option<Stretch>,
}

impl Session {
    /// Begins a case with a card whose columns are well formed. Such a card is accepted or refused with
    /// 2 or 3, and a refused one leaves the zero curve.
    pub fn open(card: &[u8], places: bool) -> (Session, Answer) {
        let read = Curve::read_card(card);
        let answer = read.map_or_else(Answer::refused, |curve| {
            Answer::of(vec![0, curve.degree().into()])
        });
        let session = Session {
            curve: read.unwrap_or_default(),
            stretch: places.then(Stretch::whole),
        };
        (session, answer)
    }

    /// The answer to a call. A refused call leaves the case as it was.
    pub fn answer(&mut self, call: Call) -> Answer {
        let answer = match call {
            Call::Evaluate { num, den } => self.evaluate(num, den),
            Call::EvaluateSixteenths { j } => self.evaluate_sixteenths(j),
            Call::Subdivide { num, den, kept } => self.subdivide(num, den, kept),
            Call::Elevate => self.elevate(),
            Call::Bounds => self.bounds(),
            Call::Search {
                limits,
                depth,
                budget,
            } => self.search(limits, depth, budget),
            Call::ChooseSetting {
                settings,
                depth,
                budget,
            } => self.choose_setting(&settings, depth, budget),
            Call::SetSum { sum } => Ok(self.set_sum(sum)),
        };
        answer.unwrap_or_else(Answer::refused)
    }

    fn evaluate(&self, num: u32, den: u32) -> Result<Answer, Refusal> {
        let read = self.curve.evaluate(num, den)?;
        Ok(self.reading(read, num, den))
    }

    fn evaluate_sixteenths(&self, j: u32) -> Result<Answer, Refusal> {
        let read = self.curve.evaluate_sixteenths(j)?;
        Ok(self.reading(read, j, SIXTEENTHS))
    }

    /// The answer of either reading at num/den, an accepted parameter. Its sum of steps is the curve's plus the
    /// degree.
    fn reading(&self, read: Evaluation, num: u32, den: u32) -> Answer {
        let mut numbers = vec![0];
        numbers.extend(sides([read.load]));
        numbers.push(i64::from(self.curve.sum()) + i64::from(self.curve.degree()));
        numbers.push(read.exact.into());
        let place = self.stretch.as_ref().and_then(|s| s.place(num, den));
        Answer { numbers, place }
    }

    fn subdivide(&mut self, num: u32, den: u32, kept: Kept) -> Result<Answer, Refusal> {
        let Subdivision { left, right, exact } = self.curve.subdivide(num, den)?;
        if let Some(stretch) = &mut self.stretch {
            stretch.cut(num, den, kept);
        }
        self.curve = match kept {
            Kept::Left => left,
            Kept::Right => right,
        };
        let mut numbers = vec![0, left.degree().into()];
        numbers.extend(sides(left.control_points()));
        numbers.extend(sides(right.control_points()));
        // Both pieces have the same sum.
        numbers.push(left.sum().into());
        numbers.push(exact.into());
        Ok(Answer::of(numbers))
    }

    fn elevate(&mut self) -> Result<Answer, Refusal> {
        let Elevation { curve, exact } = self.curve.elevate()?;
        self.curve = curve;
        let mut numbers = vec![0, curve.degree().into()];
        numbers.extend(sides(curve.control_points()));
        numbers.push(curve.sum().into());
        numbers.push(exact.into());
        Ok(Answer::of(numbers))
    }

    fn bounds(&self) -> Result<Answer, Refusal> {
        let mut numbers = vec![0];
        numbers.extend(sides([self.curve.bounds()?]));
        Ok(Answer::of(numbers))
    }

    fn search(&self, limits: Rect, depth: u32, budget: u32) -> Result<Answer, Refusal> {
        let verdict = match self.curve.search(limits, depth, budget)? {
            Verdict::Inside { count } => [1, 0, 0, count],
            Verdict::Outside {
                depth,
                index,
                count,
            } => [2, depth, index, count],
            Verdict::Spent { count } => [3, 0, 0, count],
            Verdict::Undecided {
                depth,
                index,
                count,
            } => [4, depth, index, count],
        };
        let mut numbers = vec![0];
        numbers.extend(verdict.map(i64::from));
        Ok(Answer::of(numbers))
    }

    fn choose_setting(
        &self,
        settings: &[Setting],
        depth: u32,
        budget: u32,
    ) -> Result<Answer, Refusal> {
        let choice = match self.curve.choose_setting(settings, depth, budget)? {
            Choice::Fits { index, number } => [1, index as i64, number.into()],
            Choice::NoneFits => [2, 0, 0],
        };
        let mut numbers = vec![0];
        numbers.extend(choice);
        Ok(Answer::of(numbers))
    }

    /// Gives the curve another sum of steps, whatever curve it is.
    fn set_sum(&mut self, sum: u16) -> Answer {
        self.curve = self.curve.with_sum(sum);
        Answer::of(vec![0, sum.into()])
    }
}

/// The sides of some rectangles, in their order.
fn sides(rects: impl IntoIterator<Item = Rect>) -> impl Iterator<Item = i64> {
    let sides = rects.into_iter().flat_map(<[i32; 4]>::from);
    sides.map(i64::from)
}

#[cfg(test)]
mod tests;
