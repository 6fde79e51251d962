//! The text of a run: cards and call lines off a stream, and where in the text they are.

use std::fmt;
use std::io::{self, BufRead, Read};
use std::mem;

use jusqani::{Setting, MAX_DEGREE};

use crate::call::{First, Kind, List, Request, RECORD_COLUMNS};
use crate::columns::{line_length, COLUMN, LINE_END};
use crate::line::{line_end, number, Fault, Field};

/// The degree on a card's first line.
const DEGREE: Field = Field {
    name: "the degree",
    least: 1,
    largest: MAX_DEGREE as i64,
};

/// The columns of a rectangle's line.
const SIDES: usize = 4;

/// Why no more can be taken from the text.
#[derive(Debug)]
pub enum Stop {
    Malformed(Malformed),
    Unreadable(io::Error),
}

impl From<io::Error> for Stop {
    fn from(error: io::Error) -> Stop {
        Stop::Unreadable(error)
    }
}

/// A card or a call that is malformed or cut short: the offset of its first byte, and what is
/// wrong at which line and byte of the line, both counted from 1.
#[derive(PartialEq, Debug)]
pub struct Malformed {
    pub offset: u64,
    pub line: u64,
    pub column: usize,
    pub what: String,
}

impl fmt::Display for Malformed {
    fn fmt(&self, f: &mut fmt::Formatter) -> fmt::Result {
        let Malformed {
            line, column, what, ..
        } = self;
        write!(f, "line {line}, column {column}: {what}")
    }
}

/// A text off a stream. A line is read up to the bytes that it should have, and never past its end, so
/// that no answer waits for input that it does not need. Once the stream has ended it is not read again:
/// a terminal would wait for more.
pub struct Input<R> {
    source: R,
    ended: bool,
    line: Vec<u8>,
    lines_passed: u64,
    bytes_passed: u64,
}

impl<R: BufRead> Input<R> {
    pub fn new(source: R) -> Input<R> {
        Input {
            source,
            ended: false,
            line: Vec::new(),
            lines_passed: 0,
            bytes_passed: 0,
        }
    }

    /// The bytes of the next card, all of its columns well formed; none at the text's end.
    pub fn card(&mut self) -> Result<Option<Vec<u8>>, Stop> {
        let offset = self.bytes_passed;
        self.extend_line(line_length(1))?;
        if self.line.is_empty() {
            return Ok(None);
        }
        let degree = degree_in(&self.line).map_err(|fault| self.malformed(offset, fault))?;
        let mut card = self.pass_line();
        for _ in 0..=degree {
            self.extend_line(line_length(SIDES))?;
            check_sides(&self.line).map_err(|fault| self.malformed(offset, fault))?;
            card.extend(self.pass_line());
        }
        Ok(Some(card))
    }

    /// What is asked for next inside a case; none at the text's end.
    pub fn request(&mut self) -> Result<Option<Request>, Stop> {
        let offset = self.bytes_passed;
        self.extend_line(COLUMN)?;
        if self.line.is_empty() {
            return Ok(None);
        }
        let kind = Kind::of(&self.line).map_err(|fault| self.malformed(offset, fault))?;
        self.extend_line(line_length(kind.columns()))?;
        let first = kind.first(&self.line);
        let first = first.map_err(|fault| self.malformed(offset, fault))?;
        self.pass_line();
        Ok(Some(match first {
            First::Whole(request) => request,
            First::List(list) => Request::Call(list.call(self.settings(offset, &list)?)),
        }))
    }

    /// That the text ends inside a case, where a line begins.
    pub fn cut_short(&self) -> Stop {
        let what = "the input ends, and a call is due here, or the line with the column 0 that ends the case";
        let (at, what) = (0, what.to_string());
        self.malformed(self.bytes_passed, Fault { at, what })
    }

    /// The records of the call on a list that begins at an offset. They are kept as they come, since the
    /// count may be larger than what the text holds.
    fn settings(&mut self, offset: u64, list: &List) -> Result<Vec<Setting>, Stop> {
        let mut settings = Vec::new();
        for index in 0..list.count {
            self.extend_line(line_length(RECORD_COLUMNS))?;
            let setting = list.setting(index, &self.line);
            settings.push(setting.map_err(|fault| self.malformed(offset, fault))?);
            self.pass_line();
        }
        Ok(settings)
    }

    /// Reads the line at hand on to so many bytes, or to its end or the text's.
    fn extend_line(&mut self, length: usize) -> io::Result<()> {
        if self.ended || self.line.last() == Some(&LINE_END) {
            return Ok(());
        }
        let missing = length - self.line.len();
        let mut rest = self.source.by_ref().take(missing as u64);
        let came = rest.read_until(LINE_END, &mut self.line)?;
        self.ended = came < missing && self.line.last() != Some(&LINE_END);
        Ok(())
    }

    /// Goes on to the next line, and gives the bytes of this one.
    fn pass_line(&mut self) -> Vec<u8> {
        self.lines_passed += 1;
        self.bytes_passed += self.line.len() as u64;
        mem::take(&mut self.line)
    }

    /// A fault in the line at hand, which is of the card or call that begins at an offset.
    fn malformed(&self, offset: u64, fault: Fault) -> Stop {
        Stop::Malformed(Malformed {
            offset,
            line: self.lines_passed + 1,
            column: fault.at + 1,
            what: fault.what,
        })
    }
}

/// The degree on a card's first line.
fn degree_in(line: &[u8]) -> Result<u32, Fault> {
    let degree = DEGREE.read(line, 0)?;
    line_end(line, 1)?;
    Ok(degree)
}

/// Checks the columns of a rectangle's line. The sides may be of any size: that is for the library.
fn check_sides(line: &[u8]) -> Result<(), Fault> {
    for k in 0..SIDES {
        number(line, k)?;
    }
    line_end(line, SIDES)
}

#[cfg(test)]
mod tests {
    use super::*;
    use crate::call::Call;
    use std::io::BufReader;

    const CARD: &str = "         1
         0         1        -3        -3
         1         3         0         2
";

    /// Takes a card and the calls behind it, up to what stops it.
    fn stop_of(source: impl BufRead) -> Stop {
        let mut input = Input::new(source);
        let mut next = input.card().map(|_| ());
        while next.is_ok() {
            next = input.request().map(|request| assert!(request.is_some()));
        }
        next.unwrap_err()
    }

    /// The offset, line and column where a text is malformed.
    fn malformed(text: &str) -> (u64, u64, usize) {
        place_of(stop_of(text.as_bytes()))
    }

    fn place_of(stop: Stop) -> (u64, u64, usize) {
        match stop {
            Stop::Malformed(found) => (found.offset, found.line, found.column),
            Stop::Unreadable(error) => panic!("{error}"),
        }
    }

    #[test]
    fn takes_cards_and_calls() {
        let text = format!("{CARD}         5\n         0\n{CARD}");
        let mut input = Input::new(text.as_bytes());
        assert_eq!(input.card().unwrap().unwrap(), CARD.as_bytes());
        let bounds = Request::Call(Call::Bounds);
        assert_eq!(input.request().unwrap(), Some(bounds));
        assert_eq!(input.request().unwrap(), Some(Request::Close));
        assert_eq!(input.card().unwrap().unwrap(), CARD.as_bytes());
        assert_eq!(input.request().unwrap(), None);
        assert_eq!(place_of(input.cut_short()), (208, 9, 1));
        assert!(Input::new(&b""[..]).card().unwrap().is_none());
    }

    #[test]
    fn finds_the_fault_in_a_card() {
        assert_eq!(malformed("         9\n"), (0, 1, 1));
        assert_eq!(malformed("         0\n"), (0, 1, 1));
        assert_eq!(malformed("1\n"), (0, 1, 1));
        assert_eq!(malformed("         1"), (0, 1, 11));
        assert_eq!(malformed(&CARD[..11]), (0, 2, 1));
        assert_eq!(malformed(&CARD[..40]), (0, 2, 21));
        assert_eq!(malformed(&CARD[..92]), (0, 3, 41));
        assert_eq!(malformed(&CARD.replace("-3\n", "3-\n")), (0, 2, 31));
        assert_eq!(
            malformed(&CARD.replace("         2\n", "         2 ")),
            (0, 3, 41)
        );
    }

    #[test]
    fn finds_the_fault_in_a_call_line() {
        let after = |line: &str| malformed(&format!("{CARD}         4\n{line}"));
        assert_eq!(after("        10\n"), (104, 5, 1));
        assert_eq!(after("         9\n"), (104, 5, 11));
        assert_eq!(after("         9     65536\n"), (104, 5, 11));
        assert_eq!(after("\n"), (104, 5, 1));
        assert_eq!(after("         1         1\n"), (104, 5, 21));
        assert_eq!(after("         1         1         2"), (104, 5, 31));
        assert_eq!(after("         5         5\n"), (104, 5, 11));
    }

    const RECORD: &str = "         0         4        -3         3         7\n";

    /// A list of so many records by its first line.
    fn list_of(count: u64) -> String {
        format!("         8         6       500{count:>10}\n")
    }

    #[test]
    fn takes_the_records_of_a_list() {
        let setting = Setting {
            limits: [0, 4, -3, 3].into(),
            number: 7,
        };
        for count in [0, 1, 2, 64, 65, 66, 300] {
            let records = RECORD.repeat(count as usize);
            let text = format!("{CARD}{}{records}         5\n", list_of(count));
            let mut input = Input::new(text.as_bytes());
            input.card().unwrap();
            let call = Call::ChooseSetting {
                settings: vec![setting; count as usize],
                depth: 6,
                budget: 500,
            };
            assert_eq!(input.request().unwrap(), Some(Request::Call(call)));
            let bounds = Request::Call(Call::Bounds);
            assert_eq!(input.request().unwrap(), Some(bounds));
        }
    }

    /// Whichever line it is in, the call begins at its first line. A count beyond what is there takes no room
    /// beforehand.
    #[test]
    fn finds_the_fault_in_a_list() {
        let after = |count, records: &str| {
            malformed(&format!("{CARD}         4\n{}{records}", list_of(count)))
        };
        assert_eq!(after(4_294_967_296, ""), (104, 5, 31));
        assert_eq!(after(1, ""), (104, 6, 1));
        assert_eq!(after(1, &RECORD[..50]), (104, 6, 51));
        assert_eq!(after(u64::from(u32::MAX), RECORD), (104, 7, 1));
        assert_eq!(after(2, &format!("{RECORD}         0\n")), (104, 7, 11));
        let wrong = RECORD.replace("        -3", "        3-");
        assert_eq!(after(2, &format!("{RECORD}{wrong}")), (104, 7, 21));
        let longer = RECORD.replace("7\n", "7         7\n");
        assert_eq!(after(2, &format!("{RECORD}{longer}")), (104, 7, 51));
        assert_eq!(after(1, &format!("{RECORD}{RECORD}")), (196, 7, 11));
    }

    /// A stream that gives one byte at a time, and fails where it is read past its last.
    struct ByteByByte<'a>(&'a [u8]);

    impl Read for ByteByByte<'_> {
        fn read(&mut self, buffer: &mut [u8]) -> io::Result<usize> {
            if self.0.is_empty() {
                return Err(io::Error::other("read on"));
            }
            self.0.read(&mut buffer[..1])
        }
    }

    #[test]
    fn reads_no_further_than_it_must() {
        let text = format!("{CARD}         5\n         6         0\n");
        for end in [93, 104, 125] {
            let mut input = Input::new(BufReader::new(ByteByByte(&text.as_bytes()[..end])));
            assert!(input.card().unwrap().is_some());
            assert!(end == 93 || input.request().unwrap().is_some());
            assert!(end < 125 || matches!(input.request(), Err(Stop::Malformed(_))));
        }
        for list in [list_of(0), list_of(2) + &RECORD.repeat(2)] {
            let text = format!("{CARD}{list}");
            let mut input = Input::new(BufReader::new(ByteByByte(text.as_bytes())));
            assert!(input.card().unwrap().is_some() && input.request().unwrap().is_some());
        }
        let source = BufReader::new(ByteByByte(b"1\n"));
        assert!(matches!(stop_of(source), Stop::Malformed(_)));
        let source = BufReader::new(ByteByByte(b"         1\n"));
        assert!(matches!(stop_of(source), Stop::Unreadable(_)));
    }
}
