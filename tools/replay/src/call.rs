//! The lines inside a case: the calls, their numbers, and their columns.

use jusqani::{Rect, Setting};

use crate::line::{line_end, number, Fault, Field};
use crate::stretch::Kept;

/// A call with all that it is given.
#[derive(Clone, PartialEq, Debug)]
pub enum Call {
    Evaluate {
        num: u32,
        den: u32,
    },
    EvaluateSixteenths {
        j: u32,
    },
    Subdivide {
        num: u32,
        den: u32,
        kept: Kept,
    },
    Elevate,
    Bounds,
    Search {
        limits: Rect,
        depth: u32,
        budget: u32,
    },
    ChooseSetting {
        settings: Vec<Setting>,
        depth: u32,
        budget: u32,
    },
    SetSum {
        sum: u16,
    },
}

/// What is asked for inside a case.
#[derive(Clone, PartialEq, Debug)]
pub enum Request {
    Call(Call),
    /// The case ends here.
    Close,
}

/// What the first line of a request tells: the whole request, or that records follow.
#[derive(Clone, PartialEq, Debug)]
pub enum First {
    Whole(Request),
    List(List),
}

/// What the first line of a call on a list tells: so many lines follow, one for each record.
#[derive(Clone, Copy, PartialEq, Debug)]
pub struct List {
    pub depth: u32,
    pub budget: u32,
    pub count: u32,
}

/// The columns of a record's line.
pub const RECORD_COLUMNS: usize = 5;

/// The number of a record's setting.
const SETTING: Field = Field {
    name: "the setting number",
    least: 0,
    largest: u16::MAX as i64,
};

/// The sum that a curve is given.
const SUM: Field = Field {
    name: "the sum of steps",
    least: 0,
    largest: u16::MAX as i64,
};

/// What kind of line it is, as its first column tells.
#[derive(Clone, Copy, PartialEq, Debug)]
pub enum Kind {
    Close,
    Evaluate,
    Subdivide(Kept),
    Elevate,
    Bounds,
    Search,
    EvaluateSixteenths,
    ChooseSetting,
    SetSum,
}

impl Kind {
    /// The kind of the line that begins with these bytes.
    pub fn of(start: &[u8]) -> Result<Kind, Fault> {
        match number(start, 0)? {
            0 => Ok(Kind::Close),
            1 => Ok(Kind::Evaluate),
            2 => Ok(Kind::Subdivide(Kept::Left)),
            3 => Ok(Kind::Subdivide(Kept::Right)),
            4 => Ok(Kind::Elevate),
            5 => Ok(Kind::Bounds),
            6 => Ok(Kind::Search),
            7 => Ok(Kind::EvaluateSixteenths),
            8 => Ok(Kind::ChooseSetting),
            9 => Ok(Kind::SetSum),
            other => Err(Fault {
                at: 0,
                what: format!("{other} is no call: 1 to 9 are the calls, and 0 ends a case"),
            }),
        }
    }

    /// The columns of such a line.
    pub fn columns(self) -> usize {
        match self {
            Kind::Close | Kind::Elevate | Kind::Bounds => 1,
            Kind::EvaluateSixteenths | Kind::SetSum => 2,
            Kind::Evaluate | Kind::Subdivide(_) => 3,
            Kind::ChooseSetting => 4,
            Kind::Search => 7,
        }
    }

    /// What a line of this kind tells.
    pub fn first(self, line: &[u8]) -> Result<First, Fault> {
        let call = |call| First::Whole(Request::Call(call));
        let first = match self {
            Kind::Close => First::Whole(Request::Close),
            Kind::Evaluate => {
                let (num, den) = parameter(line)?;
                call(Call::Evaluate { num, den })
            }
            Kind::Subdivide(kept) => {
                let (num, den) = parameter(line)?;
                call(Call::Subdivide { num, den, kept })
            }
            Kind::Elevate => call(Call::Elevate),
            Kind::Bounds => call(Call::Bounds),
            Kind::Search => call(search(line)?),
            Kind::EvaluateSixteenths => {
                let j = Field::word("j").read(line, 1)?;
                call(Call::EvaluateSixteenths { j })
            }
            Kind::ChooseSetting => First::List(list(line)?),
            Kind::SetSum => call(Call::SetSum {
                sum: SUM.read(line, 1)?,
            }),
        };
        line_end(line, self.columns())?;
        Ok(first)
    }
}

impl List {
    /// The setting on a record's line. A fault's words say which record it is, since it may be the count
    /// that is wrong.
    pub fn setting(&self, index: u32, line: &[u8]) -> Result<Setting, Fault> {
        setting(line).map_err(|Fault { at, what }| Fault {
            at,
            what: format!(
                "{what}, in record {index} (counted from 0) of {}",
                self.count
            ),
        })
    }

    /// The call on the list of these settings.
    pub fn call(&self, settings: Vec<Setting>) -> Call {
        Call::ChooseSetting {
            settings,
            depth: self.depth,
            budget: self.budget,
        }
    }
}

fn parameter(line: &[u8]) -> Result<(u32, u32), Fault> {
    let num = Field::word("num").read(line, 1)?;
    let den = Field::word("den").read(line, 2)?;
    Ok((num, den))
}

fn search(line: &[u8]) -> Result<Call, Fault> {
    Ok(Call::Search {
        limits: limits(line, 1)?,
        depth: Field::word("depth").read(line, 5)?,
        budget: Field::word("budget").read(line, 6)?,
    })
}

/// The box whose sides begin at the column k.
fn limits(line: &[u8], k: usize) -> Result<Rect, Fault> {
    let limits: [i32; 4] = [
        Field::side("the box's low resistance").read(line, k)?,
        Field::side("the box's high resistance").read(line, k + 1)?,
        Field::side("the box's low reactance").read(line, k + 2)?,
        Field::side("the box's high reactance").read(line, k + 3)?,
    ];
    Ok(limits.into())
}

fn list(line: &[u8]) -> Result<List, Fault> {
    Ok(List {
        depth: Field::word("depth").read(line, 1)?,
        budget: Field::word("budget").read(line, 2)?,
        count: Field::word("the count of records").read(line, 3)?,
    })
}

fn setting(line: &[u8]) -> Result<Setting, Fault> {
    let setting = Setting {
        limits: limits(line, 0)?,
        number: SETTING.read(line, 4)?,
    };
    line_end(line, RECORD_COLUMNS)?;
    Ok(setting)
}

#[cfg(test)]
mod tests {
    use super::*;
    use crate::columns::columns_of;

    fn read(numbers: &[i64]) -> Result<First, Fault> {
        let line = format!("{}\n", columns_of(numbers));
        Kind::of(line.as_bytes())?.first(line.as_bytes())
    }

    /// Where a line is wrong, and the words for it.
    fn wrong(numbers: &[i64]) -> (usize, String) {
        let fault = read(numbers).unwrap_err();
        (fault.at, fault.what)
    }

    #[test]
    fn reads_every_call() {
        let (num, den) = (1, u32::MAX);
        let word = i64::from(u32::MAX);
        let subdivide = |kept| Call::Subdivide { num, den, kept };
        let search = Call::Search {
            limits: [-1, 2, -3, 4].into(),
            depth: 5,
            budget: 6,
        };
        let calls: [(&[i64], Call); 8] = [
            (&[1, 1, word], Call::Evaluate { num, den }),
            (&[2, 1, word], subdivide(Kept::Left)),
            (&[3, 1, word], subdivide(Kept::Right)),
            (&[4], Call::Elevate),
            (&[5], Call::Bounds),
            (&[6, -1, 2, -3, 4, 5, 6], search),
            (&[7, word], Call::EvaluateSixteenths { j: u32::MAX }),
            (&[9, 65_535], Call::SetSum { sum: u16::MAX }),
        ];
        for (numbers, call) in calls {
            assert_eq!(read(numbers), Ok(First::Whole(Request::Call(call))));
        }
        assert_eq!(read(&[0]), Ok(First::Whole(Request::Close)));
        let list = List {
            depth: 5,
            budget: 6,
            count: u32::MAX,
        };
        assert_eq!(read(&[8, 5, 6, word]), Ok(First::List(list)));
    }

    const LIST: List = List {
        depth: 5,
        budget: 6,
        count: 3,
    };

    fn record(numbers: &[i64]) -> Result<Setting, Fault> {
        LIST.setting(2, format!("{}\n", columns_of(numbers)).as_bytes())
    }

    #[test]
    fn reads_a_record() {
        let setting = Setting {
            limits: [-999_999_999, i32::MAX, -3, 4].into(),
            number: u16::MAX,
        };
        let numbers = [-999_999_999, i64::from(i32::MAX), -3, 4, 65_535];
        assert_eq!(record(&numbers), Ok(setting));
        let call = Call::ChooseSetting {
            settings: vec![setting],
            depth: 5,
            budget: 6,
        };
        assert_eq!(LIST.call(vec![setting]), call);
    }

    #[test]
    fn finds_the_first_wrong_column_of_a_record() {
        let wrong = |numbers: &[i64]| {
            let fault = record(numbers).unwrap_err();
            (fault.at, fault.what)
        };
        let of_list = ", in record 2 (counted from 0) of 3";
        let words = "the setting number is 65536, which is not 0 to 65535";
        assert_eq!(
            wrong(&[0, 1, 0, 1, 65_536]),
            (40, format!("{words}{of_list}"))
        );
        let words = "the setting number is -1, which is not 0 to 65535";
        assert_eq!(wrong(&[0, 1, 0, 1, -1]), (40, format!("{words}{of_list}")));
        let words =
            "the box's high reactance is 2147483648, which is not -2147483648 to 2147483647";
        let numbers = [0, 1, 0, 2_147_483_648, -1];
        assert_eq!(wrong(&numbers), (30, format!("{words}{of_list}")));
        let words = "the line ends, and ten bytes of a number are due here";
        assert_eq!(wrong(&[0]), (10, format!("{words}{of_list}")));
        assert_eq!(wrong(&[0, 1, 0, 1]).0, 40);
        assert_eq!(wrong(&[0, 1, 0, 1, 7, 7]).0, 50);
    }

    #[test]
    fn finds_the_first_wrong_column() {
        let words = "10 is no call: 1 to 9 are the calls, and 0 ends a case";
        assert_eq!(wrong(&[10]), (0, words.to_string()));
        let words = "num is -1, which is not 0 to 4294967295";
        assert_eq!(wrong(&[1, -1, -1]), (10, words.to_string()));
        let words = "j is -1, which is not 0 to 4294967295";
        assert_eq!(wrong(&[7, -1]), (10, words.to_string()));
        let words = "the box's low reactance is 2147483648, which is not -2147483648 to 2147483647";
        assert_eq!(
            wrong(&[6, 0, 0, 2_147_483_648, 0, 0, 1]),
            (30, words.to_string())
        );
        assert_eq!(wrong(&[6, 0, 0, 0, 0, 0]).0, 60);
        assert_eq!(wrong(&[1, 1]).0, 20);
        assert_eq!(wrong(&[7]).0, 10);
        assert_eq!(wrong(&[7, 8, 16]).0, 20);
        assert_eq!(wrong(&[4, 4]).0, 10);
        let words = "the count of records is -1, which is not 0 to 4294967295";
        assert_eq!(wrong(&[8, 5, 6, -1]), (30, words.to_string()));
        assert_eq!(wrong(&[8, 5, 6]).0, 30);
        assert_eq!(wrong(&[8, 5, 6, 1, 1]).0, 40);
        let words = "the sum of steps is 65536, which is not 0 to 65535";
        assert_eq!(wrong(&[9, 65_536]), (10, words.to_string()));
        assert_eq!(wrong(&[9, -1]).0, 10);
        assert_eq!(wrong(&[9]).0, 10);
        assert_eq!(wrong(&[9, 5, 5]).0, 20);
    }
}
