//! Numbers in text columns, ten bytes wide and set to the right.

use std::fmt::Write;

/// The bytes of a column.
pub const COLUMN: usize = 10;

/// The largest number that a column holds. A larger count is written as this one.
const LARGEST: u64 = 9_999_999_999;

/// The byte that ends a line.
pub const LINE_END: u8 = b'\n';

/// The bytes of a line of so many columns.
pub const fn line_length(count: usize) -> usize {
    COLUMN * count + 1
}

/// The number whose column these bytes are, exactly as it would be written.
pub fn number_in(bytes: &[u8]) -> Option<i64> {
    let text = std::str::from_utf8(bytes).ok()?;
    let number: i64 = text.trim_start_matches(' ').parse().ok()?;
    (format!("{number:>COLUMN$}") == text).then_some(number)
}

/// The columns of some numbers, without a line end.
pub fn columns_of(numbers: &[i64]) -> String {
    let mut columns = String::with_capacity(line_length(numbers.len()));
    for number in numbers {
        write!(columns, "{number:>COLUMN$}").expect("a string takes any text");
    }
    columns
}

/// A count as it is written.
pub fn capped(count: u64) -> i64 {
    count.min(LARGEST) as i64
}

#[cfg(test)]
mod tests {
    use super::*;

    #[test]
    fn reads_what_it_writes() {
        for number in [0, 7, -1, -999_999_999, 9_999_999_999] {
            let column = columns_of(&[number]);
            assert_eq!(column.len(), COLUMN);
            assert_eq!(number_in(column.as_bytes()), Some(number));
        }
    }

    #[test]
    fn reads_nothing_else() {
        let malformed = [
            "          ",
            "        04",
            "        +4",
            "        -0",
            "       - 4",
            "4         ",
            "       4  ",
            "\t        4",
            "         x",
            "        4",
            "          4",
            "",
        ];
        for column in malformed {
            assert_eq!(number_in(column.as_bytes()), None, "{column:?}");
        }
        assert_eq!(
            number_in(&[b' ', b' ', b' ', 255, 255, 255, 255, 255, b'4', b'4']),
            None
        );
    }

    #[test]
    fn caps_counts() {
        assert_eq!(capped(9_999_999_999), 9_999_999_999);
        assert_eq!(capped(10_000_000_000), 9_999_999_999);
    }
}
