//! One line of the text, and what is wrong with it.

use crate::columns::{number_in, COLUMN, LINE_END};

/// What is wrong with a line, and the byte of the line where it is.
#[derive(PartialEq, Debug)]
pub struct Fault {
    pub at: usize,
    pub what: String,
}

/// The number in the column k of a line.
pub fn number(line: &[u8], k: usize) -> Result<i64, Fault> {
    let at = COLUMN * k;
    let bytes = &line[at.min(line.len())..line.len().min(at + COLUMN)];
    number_in(bytes).ok_or_else(|| Fault {
        at,
        what: malformed(bytes),
    })
}

/// A number that has its own words: which it is, and the least and the largest that it may be.
pub struct Field {
    pub name: &'static str,
    pub least: i64,
    pub largest: i64,
}

impl Field {
    /// A parameter, a depth, a budget or a count of records: any 32-bit number, as the calls can be given.
    pub const fn word(name: &'static str) -> Field {
        Field {
            name,
            least: 0,
            largest: u32::MAX as i64,
        }
    }

    /// A side of a box: any number that the call can be given.
    pub const fn side(name: &'static str) -> Field {
        Field {
            name,
            least: i32::MIN as i64,
            largest: i32::MAX as i64,
        }
    }

    /// The field in the column k of a line.
    pub fn read<T: TryFrom<i64>>(&self, line: &[u8], k: usize) -> Result<T, Fault> {
        let number = number(line, k)?;
        let in_range = (self.least..=self.largest).contains(&number);
        let read = T::try_from(number).ok().filter(|_| in_range);
        read.ok_or_else(|| Fault {
            at: COLUMN * k,
            what: format!(
                "{} is {number}, which is not {} to {}",
                self.name, self.least, self.largest
            ),
        })
    }
}

/// Checks that a line ends after so many columns.
pub fn line_end(line: &[u8], count: usize) -> Result<(), Fault> {
    let at = COLUMN * count;
    let what = match line.get(at) {
        Some(&LINE_END) => return Ok(()),
        Some(byte) => format!(
            "the line has to end here, with byte 10, and {} stands here",
            visible(&[*byte])
        ),
        None => "the input ends, and the line has to end first, with byte 10".to_string(),
    };
    Err(Fault { at, what })
}

/// What is wrong with a column's bytes, as many as there are.
fn malformed(bytes: &[u8]) -> String {
    if bytes.last() == Some(&LINE_END) {
        return "the line ends, and ten bytes of a number are due here".to_string();
    }
    if bytes.len() < COLUMN {
        return "the input ends, and ten bytes of a number are due here".to_string();
    }
    format!(
        "{} is not a number set to the right in ten bytes",
        visible(bytes)
    )
}

/// Bytes as a message shows them.
fn visible(bytes: &[u8]) -> String {
    format!("\"{}\"", bytes.escape_ascii())
}

#[cfg(test)]
mod tests {
    use super::*;

    fn fault<T>(at: usize, what: &str) -> Result<T, Fault> {
        let what = what.to_string();
        Err(Fault { at, what })
    }

    #[test]
    fn reads_numbers_and_the_line_end() {
        let line = b"         1        -3\n";
        assert_eq!(number(line, 0), Ok(1));
        assert_eq!(number(line, 1), Ok(-3));
        assert_eq!(line_end(line, 2), Ok(()));
    }

    #[test]
    fn says_what_is_wrong_and_where() {
        let line = b"         1        +3\n";
        let what = "\"        +3\" is not a number set to the right in ten bytes";
        assert_eq!(number(line, 1), fault(10, what));
        let what = "the line ends, and ten bytes of a number are due here";
        assert_eq!(number(line, 2), fault(20, what));
        assert_eq!(number(b"     1\n", 0), fault(0, what));
        let what = "the input ends, and ten bytes of a number are due here";
        assert_eq!(number(b"         1     ", 1), fault(10, what));
        let what = "the line has to end here, with byte 10, and \"\\r\" stands here";
        assert_eq!(line_end(b"         4\r\n", 1), fault(10, what));
        let what = "the input ends, and the line has to end first, with byte 10";
        assert_eq!(line_end(b"         4", 1), fault(10, what));
    }

    #[test]
    fn knows_the_range_of_a_field() {
        let line = b"4294967295        -14294967296\n";
        let (den, low) = (Field::word("den"), Field::side("low"));
        assert_eq!(den.read(line, 0), Ok(u32::MAX));
        let what = "den is -1, which is not 0 to 4294967295";
        assert_eq!(den.read::<u32>(line, 1), fault(10, what));
        assert_eq!(low.read(line, 1), Ok(-1_i32));
        let what = "den is 4294967296, which is not 0 to 4294967295";
        assert_eq!(den.read::<u32>(line, 2), fault(20, what));
    }
}
