//! A list of settings off a text: one call 8 of `replay`, and nothing behind it.

use std::io::{self, BufRead};

use replay::{Call, Input, Request, Stop};

use crate::answers::List;

/// Why a text is no list.
#[derive(Debug)]
pub enum Fault {
    Malformed(String),
    Unreadable(io::Error),
}

impl From<Stop> for Fault {
    fn from(stop: Stop) -> Fault {
        match stop {
            Stop::Malformed(found) if found.line == 1 => {
                Fault::Malformed(format!("{found}; {FIRST_LINE}"))
            }
            Stop::Malformed(found) => Fault::Malformed(found.to_string()),
            Stop::Unreadable(error) => Fault::Unreadable(error),
        }
    }
}

const FIRST_LINE: &str = "a list of settings begins with the columns 8, depth, budget and count";

pub fn read(source: impl BufRead) -> Result<List, Fault> {
    let mut input = Input::new(source);
    let Some(Request::Call(Call::ChooseSetting {
        settings,
        depth,
        budget,
    })) = input.request()?
    else {
        return Err(Fault::Malformed(format!("line 1, column 1: {FIRST_LINE}")));
    };
    match input.request() {
        Ok(None) => (),
        Err(Stop::Unreadable(error)) => return Err(Fault::Unreadable(error)),
        _ => {
            let behind = settings.len() + 2;
            let what = "the list's last record is before this line, and more stands here";
            return Err(Fault::Malformed(format!("line {behind}, column 1: {what}")));
        }
    }
    Ok(List {
        settings,
        depth,
        budget,
    })
}

#[cfg(test)]
mod tests {
    use super::*;
    use jusqani::Setting;

    const LIST: &str = "         8         6       500         1
     51200    102400    -40960     71680         3
";

    fn wrong(text: &str) -> String {
        match read(text.as_bytes()) {
            Err(Fault::Malformed(what)) => what,
            other => panic!("{other:?}"),
        }
    }

    #[test]
    fn reads_one_call_8() {
        let list = List {
            settings: vec![Setting {
                limits: [51_200, 102_400, -40_960, 71_680].into(),
                number: 3,
            }],
            depth: 6,
            budget: 500,
        };
        assert_eq!(read(LIST.as_bytes()).unwrap(), list);
    }

    #[test]
    fn says_what_is_no_list() {
        for text in ["", "         5\n", "         0\n"] {
            assert_eq!(wrong(text), format!("line 1, column 1: {FIRST_LINE}"));
        }
        let card = "line 1, column 11: the line ends, and ten bytes of a number are due here";
        assert_eq!(wrong("         3\n"), format!("{card}; {FIRST_LINE}"));
        let cut_short = wrong(&LIST[..41]);
        assert_eq!(
            cut_short,
            "line 2, column 1: the input ends, and ten bytes of a number are due here, in record 0 (counted from 0) of 1"
        );
        let behind =
            "line 3, column 1: the list's last record is before this line, and more stands here";
        assert_eq!(wrong(&format!("{LIST}         0\n")), behind);
        assert_eq!(wrong(&format!("{LIST}x")), behind);
        assert_eq!(wrong(&format!("{LIST}\n")), behind);
    }
}
