//! One question to the library, and the two that answer it: the model and the proved calls. What holds for
//! every call alike is not here but in `compare`.

use crate::bridge::Measurement;
use crate::card::{card_of, curve_of, FIRST_LINE, LINE};
use crate::compare::{Lent, Stored};
use crate::model::{ohm_bits, Curve, Flagged, Parameter, Rectangle, Refusal, MAX_DEGREE, MAX_SIDE};
use crate::search::{Effort, Record, Search, Settings};
use jusqani::{raw, Setting};

/// A call of include/jusqani.h and what it is lent for reading.
#[derive(Clone, PartialEq, Debug)]
#[rustfmt::skip]
pub enum Ask {
    Evaluate { curve: Given, t: Parameter },
    EvaluateSixteenths { curve: Given, j: u32 },
    Subdivide { curve: Given, t: Parameter },
    Elevate { curve: Given },
    Bounds { curve: Given },
    Search { curve: Given, limits: Vec<i32>, effort: Effort },
    ChooseSetting { curve: Given, settings: Vec<Setting>, effort: Effort },
    Enclose { ohms: Ohms },
    ReadCard { card: Vec<u8> },
    WriteCard { curve: Given },
    Panel { card: Vec<u8>, t: Parameter },
}

/// A curve as a call is lent it: its degree, its sum of steps, then its sides. It may be cut short anywhere, and
/// there may be more numbers behind it.
#[derive(Clone, PartialEq, Debug)]
pub struct Given(pub Vec<i32>);

/// Single-precision numbers, equal where their bits are.
#[derive(Clone, Debug)]
pub struct Ohms(pub Vec<f32>);

impl Ohms {
    pub fn of(bits: &[u32]) -> Ohms {
        Ohms(bits.iter().map(|bits| f32::from_bits(*bits)).collect())
    }

    fn bits(&self) -> Vec<u32> {
        self.0.iter().map(|ohms| ohms.to_bits()).collect()
    }
}

impl PartialEq for Ohms {
    fn eq(&self, other: &Ohms) -> bool {
        self.bits() == other.bits()
    }
}

/// A side that a lent slice lacks counts as one out of range.
const LACKING: i64 = MAX_SIDE + 1;

/// The degree and the sum stand before the sides of a curve.
const BEFORE_SIDES: usize = 2;

/// What a choice and the bridge's call find.
const FITS: i64 = 1;
const NONE_FITS: i64 = 2;
const NO_CARRIER: u32 = 1;
const RECTANGLE: u32 = 2;

impl Given {
    /// A curve with just its sides, which must be 32-bit numbers.
    pub fn of(curve: &Curve) -> Given {
        Given::stored(&curve_words(curve))
    }

    /// The curve that a call stored, handed on as it is.
    pub fn stored(words: &[i64]) -> Given {
        Given(words.iter().map(|word| *word as i32).collect())
    }

    /// The curve that this is. A degree that is lacking or below 0 counts as 0, which is refused alike, and a sum
    /// that is lacking or out of range as the largest. Numbers past rectangle n are not read.
    pub fn curve(&self) -> Curve {
        let number = |place: usize| self.0.get(place).copied();
        let sum = number(1).and_then(|sum| u16::try_from(sum).ok());
        let mut curve = Curve::ZERO.with_sum(sum.unwrap_or(u16::MAX));
        curve.degree = number(0).map_or(0, |degree| degree.max(0) as usize);
        let places = 4 * (MAX_DEGREE.min(curve.degree) + 1);
        let sides = curve.points.as_flattened_mut()[..places].iter_mut();
        for (side, place) in sides.zip(BEFORE_SIDES..) {
            *side = number(place).map_or(LACKING, i64::from);
        }
        curve
    }
}

/// The numbers of a curve.
pub const fn curve_length(degree: usize) -> usize {
    BEFORE_SIDES + 4 * (degree + 1)
}

impl Ask {
    /// Which row of the table of calls this is.
    pub fn row(&self) -> usize {
        match self {
            Ask::Evaluate { .. } => 0,
            Ask::EvaluateSixteenths { .. } => 1,
            Ask::Subdivide { .. } => 2,
            Ask::Elevate { .. } => 3,
            Ask::Bounds { .. } => 4,
            Ask::Search { .. } => 5,
            Ask::ChooseSetting { .. } => 6,
            Ask::Enclose { .. } => 7,
            Ask::ReadCard { .. } => 8,
            Ask::WriteCard { .. } => 9,
            Ask::Panel { .. } => 10,
        }
    }

    /// Which of its row's kinds of answer an accepted call has: as its flag says, its verdict, what it found, or
    /// the one kind that there is.
    pub fn kind(&self, stored: &Stored) -> usize {
        match self {
            Ask::Search { .. } | Ask::ChooseSetting { .. } => stored.buffers[0][0] as usize - 1,
            Ask::Enclose { ohms } => ohms.0.len().saturating_sub(1),
            _ => stored.flag.unwrap_or(0) as usize,
        }
    }

    /// Which of its row's wrong forms was lent, if any, and if the call was not refused for something else: by the
    /// refusal's number, or 0.
    pub fn form(&self, number: u32) -> Option<usize> {
        if let (Ask::Enclose { ohms }, 13) = (self, number) {
            return (ohms.0.len() > 3).then_some(0);
        }
        let numbers = &self.curve()?.0[..];
        match (numbers, number) {
            ([], 1) => Some(0),
            ([degree, ..], 1) if *degree < 0 => Some(1),
            ([_], 2) => Some(2),
            ([degree, ..], 2) if numbers.len() < curve_length(*degree as usize) => Some(3),
            ([_, sum, ..], 0 | 17) if u16::try_from(*sum).is_err() => Some(4),
            _ => None,
        }
    }

    /// The curve lent, where there is one.
    pub fn curve(&self) -> Option<&Given> {
        match self {
            Ask::Evaluate { curve, .. }
            | Ask::EvaluateSixteenths { curve, .. }
            | Ask::Subdivide { curve, .. }
            | Ask::Elevate { curve }
            | Ask::Bounds { curve }
            | Ask::Search { curve, .. }
            | Ask::ChooseSetting { curve, .. }
            | Ask::WriteCard { curve } => Some(curve),
            Ask::Enclose { .. } | Ask::ReadCard { .. } | Ask::Panel { .. } => None,
        }
    }

    /// The degree of an accepted call's curve, and 0 where there is none.
    pub fn degree(&self) -> usize {
        match self {
            Ask::ReadCard { card } | Ask::Panel { card, .. } => {
                (card.len() - FIRST_LINE) / LINE - 1
            }
            _ => self.curve().map_or(0, |curve| curve.curve().degree),
        }
    }

    /// What the model says: what the call stores, or how it is refused, 12 aside.
    #[rustfmt::skip]
    pub fn by_model(&self) -> Result<Stored, Refusal> {
        Ok(match self {
            Ask::Evaluate { curve, t } => reading(curve.curve().evaluate(*t)?),
            Ask::EvaluateSixteenths { curve, j } => reading(curve.curve().evaluate_sixteenths(*j)?),
            Ask::Subdivide { curve, t } => {
                let pieces = curve.curve().subdivide(*t)?;
                curves(&pieces.result, pieces.exact)
            }
            Ask::Elevate { curve } => {
                let raised = curve.curve().elevate()?;
                curves(&[raised.result], raised.exact)
            }
            Ask::Bounds { curve } => Stored::one(curve.curve().bounds()?.to_vec()),
            Ask::Search { curve, limits, effort } => {
                let verdict = search_of(limits, *effort).over(&curve.curve())?;
                Stored::one(verdict.map(i64::from).to_vec())
            }
            Ask::ChooseSetting { curve, settings, effort } => {
                Stored::one(match settings_of(settings, *effort).choose(&curve.curve())? {
                    Some((index, number)) => vec![FITS, index as i64, number.into()],
                    None => vec![NONE_FITS, 0, 0],
                })
            }
            Ask::Enclose { ohms } => match measurement(&ohms.bits()).enclose()? {
                Some(sides) => Stored::with_flag(vec![sides.to_vec()], RECTANGLE),
                None => Stored::with_flag(vec![vec![]], NO_CARRIER),
            },
            Ask::ReadCard { card } => Stored::one(curve_words(&curve_of(card)?)),
            Ask::WriteCard { curve } => {
                let curve = curve.curve();
                curve.check()?;
                Stored::one(bytes(&card_of(&curve)))
            }
            Ask::Panel { card, t } => {
                let load = curve_of(card)?.evaluate(*t)?.result;
                Stored::one(bytes(load.map(|side| (side as i32).to_le_bytes()).as_flattened()))
            }
        })
    }

    /// What the library answers, with what it leaves in the buffers lent to it.
    #[rustfmt::skip]
    pub fn by_library(&self, lent: &mut Lent) -> u64 {
        match self {
            Ask::Evaluate { curve: c, t } =>
                lent.two(|load, ohms, exact| raw::evaluate(&c.0, t.num, t.den, load, ohms, exact)),
            Ask::EvaluateSixteenths { curve: c, j } =>
                lent.two(|load, ohms, exact| raw::evaluate_sixteenths(&c.0, *j, load, ohms, exact)),
            Ask::Subdivide { curve: c, t } =>
                lent.two(|left, right, exact| raw::subdivide(&c.0, t.num, t.den, left, right, exact)),
            Ask::Elevate { curve: c } => lent.one(|raised, exact| raw::elevate(&c.0, raised, exact)),
            Ask::Bounds { curve: c } => lent.one(|rect, _| raw::bounds(&c.0, rect)),
            Ask::Search { curve: c, limits, effort: e } =>
                lent.one(|verdict, _| raw::search(&c.0, limits, e.depth, e.budget, verdict)),
            Ask::ChooseSetting { curve: c, settings, effort: e } =>
                lent.one(|choice, _| raw::choose_setting(&c.0, settings, e.depth, e.budget, choice)),
            Ask::Enclose { ohms } => lent.one(|rect, found| raw::enclose(&ohms.0, rect, found)),
            Ask::ReadCard { card } => lent.one(|curve, _| raw::read_card(card, curve)),
            Ask::WriteCard { curve: c } => lent.one(|card, _| raw::write_card(&c.0, card)),
            Ask::Panel { card, t } => lent.one(|out, _| raw::panel(card, t.num, t.den, out).into()),
        }
    }

    /// Whether the answer has a refusal's place beside its number: the panel call's has none.
    pub fn has_places(&self) -> bool {
        !matches!(self, Ask::Panel { .. })
    }

    /// How many buffers are lent for the result.
    pub fn buffers(&self) -> usize {
        match self {
            Ask::Evaluate { .. } | Ask::EvaluateSixteenths { .. } | Ask::Subdivide { .. } => 2,
            _ => 1,
        }
    }
}

/// The load's sides and the same in ohms, for either reading.
fn reading(read: Flagged<Rectangle>) -> Stored {
    let ohms = read.result.map(|side| ohm_bits(side).into());
    Stored::with_flag(vec![read.result.to_vec(), ohms.to_vec()], read.exact.into())
}

/// One curve or two in a buffer each, with their flag.
fn curves(curves: &[Curve], exact: bool) -> Stored {
    Stored::with_flag(curves.iter().map(curve_words).collect(), exact.into())
}

fn curve_words(curve: &Curve) -> Vec<i64> {
    let mut words = Vec::with_capacity(curve_length(curve.degree));
    words.extend([curve.degree as i64, curve.sum.into()]);
    words.extend(curve.control_points().as_flattened());
    words
}

fn bytes(bytes: &[u8]) -> Vec<i64> {
    bytes.iter().map(|byte| i64::from(*byte)).collect()
}

/// The search that a call is lent; a side that the box lacks is out of range.
pub fn search_of(limits: &[i32], effort: Effort) -> Search {
    let side = |side| limits.get(side).map_or(LACKING, |limit| i64::from(*limit));
    let limits = [0, 1, 2, 3].map(side);
    Search { limits, effort }
}

fn settings_of(settings: &[Setting], effort: Effort) -> Settings {
    let record = |setting: &Setting| Record {
        limits: <[i32; 4]>::from(setting.limits).map(i64::from),
        number: setting.number,
    };
    let records = settings.iter().map(record).collect();
    Settings { records, effort }
}

/// What the bridge delivered, by how many numbers are lent: a reactance that is lacking counts as not a number,
/// and of more than three numbers the spread.
fn measurement(ohms: &[u32]) -> Measurement {
    const NOT_A_NUMBER: u32 = 0x7fc0_0000;
    match *ohms {
        [] => Measurement::NoCarrier,
        [r] => Measurement::Load([r, NOT_A_NUMBER]),
        [r, x] => Measurement::Load([r, x]),
        [r, x, spread] => Measurement::LoadWithSpread([r, x, spread]),
        [r, x, ..] => Measurement::LoadWithSpread([r, x, NOT_A_NUMBER]),
    }
}

#[cfg(test)]
mod tests {
    use super::*;

    #[test]
    fn reads_a_curve_from_any_numbers() {
        let line = [1, 65_536, 0, 0, 0, 0, 4, 4, 0, 0, i32::MIN];
        let read = |length: usize| Given(line[..length].to_vec()).curve();
        let refused = [0, 1, 2, 5, 6, 9].map(|length| read(length).check().unwrap_err());
        let refused = refused.map(|refusal| (refusal.number, refusal.place));
        assert_eq!(refused, [(1, 0), (2, 0), (2, 0), (2, 0), (2, 1), (2, 1)]);
        let curve = Curve::new(&[[0; 4], [4, 4, 0, 0]]).with_sum(65_535);
        assert_eq!([read(10), read(11)], [curve; 2]);
        assert_eq!(Given(vec![-1, -1]).curve().check().unwrap_err().number, 1);
    }
}
