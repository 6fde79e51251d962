//! What a call refuses, and the header's words for it.

use std::error::Error;
use std::fmt;

const HEADER: &str = include_str!("../../../include/jusqani.h");

/// A refused call: what was refused, and where.
#[derive(Clone, Copy, PartialEq, Eq, Debug)]
pub struct Refusal {
    pub number: u32,
    pub place: u32,
}

impl Refusal {
    /// The header's words for the number, from its table of refusals.
    pub fn meaning(&self) -> &'static str {
        let row = format!("X({}, ", self.number);
        HEADER
            .lines()
            .find(|line| line.trim_start().starts_with(&row))
            .and_then(|line| line.split('"').nth(1))
            .unwrap_or("not a refusal of this library")
    }

    /// A call's answer: 0 is success, any other is a refusal's number with its place above it.
    #[inline]
    pub(crate) fn check(answer: u64) -> Result<(), Refusal> {
        if answer == 0 {
            return Ok(());
        }
        Err(Refusal {
            number: answer as u32,
            place: (answer >> 32) as u32,
        })
    }
}

impl fmt::Display for Refusal {
    fn fmt(&self, f: &mut fmt::Formatter) -> fmt::Result {
        write!(f, "refused {}: {}", self.number, self.meaning())?;
        match (self.number, self.place) {
            (2 | 3, place) => write!(f, ", in rectangle {place}"),
            // A search has one box, number 0; in a list a box has its record's index.
            (7, place) => write!(f, ", in box {place}"),
            (10, u32::MAX) => write!(f, ", it has {} bytes or more", u32::MAX),
            (10, place) => write!(f, ", it has {place} bytes"),
            (11, place) => write!(f, ", at offset {place}"),
            (12, place) => write!(f, ", the length {place} is needed"),
            (13 | 14, 0) => write!(f, ", the resistance"),
            (13 | 14, 1) => write!(f, ", the reactance"),
            (13, 2) => write!(f, ", the spread"),
            (16, u32::MAX) => write!(f, ", it has {} records or more", u32::MAX),
            (16, place) => write!(f, ", it has {place} records"),
            _ => Ok(()),
        }
    }
}

impl Error for Refusal {}

#[cfg(test)]
mod tests {
    use super::*;

    fn shown(number: u32, place: u32) -> String {
        Refusal { number, place }.to_string()
    }

    #[test]
    fn says_what_and_where() {
        assert_eq!(shown(1, 0), "refused 1: the degree is not 1 to 8");
        assert_eq!(
            shown(2, 3),
            "refused 2: a side is out of range (16,384 ohms either way), in rectangle 3"
        );
        assert_eq!(
            shown(10, 92),
            "refused 10: the card has fewer than 11 bytes, or not the length for its degree, it has 92 bytes"
        );
        assert_eq!(
            shown(11, 21),
            "refused 11: a column is malformed, or a line does not end with byte 10, at offset 21"
        );
        assert_eq!(
            shown(12, 16),
            "refused 12: a buffer for the result is too short, the length 16 is needed"
        );
        assert_eq!(shown(15, 0), "refused 15: j is above 16");
        assert_eq!(
            shown(17, 0),
            "refused 17: the sum of steps would pass 65,535"
        );
        assert_eq!(shown(18, 0), "refused 18: not a refusal of this library");
    }

    #[test]
    fn says_which_box_and_how_long_a_list() {
        let meaning = "a box side is out of range, or a low side is not below its high side";
        assert_eq!(shown(7, 0), format!("refused 7: {meaning}, in box 0"));
        assert_eq!(shown(7, 63), format!("refused 7: {meaning}, in box 63"));
        let meaning = "the list of settings is empty or longer than 64";
        assert_eq!(
            shown(16, 0),
            format!("refused 16: {meaning}, it has 0 records")
        );
        assert_eq!(
            shown(16, 65),
            format!("refused 16: {meaning}, it has 65 records")
        );
        assert_eq!(
            shown(16, u32::MAX),
            format!("refused 16: {meaning}, it has 4294967295 records or more")
        );
    }

    #[test]
    fn says_which_measured_number() {
        let meaning = "a measured number is not finite, a load is beyond 16,384 ohms either way, \
                       or a spread is not 0 to 16,384 ohms";
        assert_eq!(
            shown(13, 0),
            format!("refused 13: {meaning}, the resistance")
        );
        assert_eq!(
            shown(13, 1),
            format!("refused 13: {meaning}, the reactance")
        );
        assert_eq!(shown(13, 2), format!("refused 13: {meaning}, the spread"));
        let meaning = "with the spread a side is out of range (16,384 ohms either way)";
        assert_eq!(
            shown(14, 0),
            format!("refused 14: {meaning}, the resistance")
        );
        assert_eq!(
            shown(14, 1),
            format!("refused 14: {meaning}, the reactance")
        );
    }

    #[test]
    fn takes_number_and_place_off_an_answer() {
        assert_eq!(Refusal::check(0), Ok(()));
        let (number, place) = (10, u32::MAX);
        assert_eq!(
            Refusal::check(10 + (u64::from(u32::MAX) << 32)),
            Err(Refusal { number, place })
        );
    }
}
