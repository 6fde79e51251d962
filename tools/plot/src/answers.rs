//! What the proved calls answer about a card's curve and about a list of settings.

use jusqani::{Choice, Curve, Evaluation, Rect, Refusal, Setting, Verdict, SIXTEENTHS};

/// A curve, its span, and both readings at each of the places 0/16 to 16/16.
pub struct Answers {
    pub curve: Curve,
    pub span: Rect,
    pub staged: Vec<Evaluation>,
    pub summed: Vec<Evaluation>,
}

impl Answers {
    pub fn of(curve: Curve) -> Result<Answers, Refusal> {
        let places = || 0..=SIXTEENTHS;
        Ok(Answers {
            curve,
            span: curve.bounds()?,
            staged: places()
                .map(|j| curve.evaluate(j, SIXTEENTHS))
                .collect::<Result<_, _>>()?,
            summed: places()
                .map(|j| curve.evaluate_sixteenths(j))
                .collect::<Result<_, _>>()?,
        })
    }

    /// The most steps by which a side of a staged reading is beyond the exact one.
    pub fn steps(&self) -> u32 {
        u32::from(self.curve.sum()) + self.curve.degree()
    }
}

/// A list of settings, and with which effort each of its boxes is walked over.
#[derive(PartialEq, Debug)]
pub struct List {
    pub settings: Vec<Setting>,
    pub depth: u32,
    pub budget: u32,
}

/// What was chosen from a list, and what a search of the first box that fails ends with.
pub struct Chosen {
    pub list: List,
    pub choice: Choice,
    pub failed: Option<Verdict>,
}

/// The record that fails first, if any does: the records are tried in their order, and the first that fits ends it.
pub const FIRST: usize = 0;

impl Chosen {
    pub fn of(curve: &Curve, list: List) -> Result<Chosen, Refusal> {
        let choice = curve.choose_setting(&list.settings, list.depth, list.budget)?;
        let fits = matches!(choice, Choice::Fits { index: FIRST, .. });
        let search = || curve.search(list.settings[FIRST].limits, list.depth, list.budget);
        let failed = if fits { None } else { Some(search()?) };
        Ok(Chosen {
            list,
            choice,
            failed,
        })
    }

    /// The stretch of the band that the verdict on the first box that fails names, if it names one.
    pub fn stretch(&self) -> Option<Stretch> {
        match self.failed? {
            Verdict::Outside { depth, index, .. } | Verdict::Undecided { depth, index, .. } => {
                Some(Stretch { depth, index })
            }
            Verdict::Inside { .. } | Verdict::Spent { .. } => None,
        }
    }
}

/// The stretch of a piece: from index/2^depth of the band to (index + 1)/2^depth.
#[derive(Clone, Copy, PartialEq, Debug)]
pub struct Stretch {
    pub depth: u32,
    pub index: u32,
}
