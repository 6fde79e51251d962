//! The card's text: columns ten bytes wide, lines of columns, and the card that they make.

use crate::model::{refuse_if, Curve, Refusal, MAX_DEGREE};

pub const COLUMN: usize = 10;
pub const FIRST_LINE: usize = 11;
pub const LINE: usize = 41;
pub const LINE_END: u8 = 10;

/// The ten bytes of a number set to the right. It must be one of at most ten characters.
fn column_of(number: i64) -> [u8; COLUMN] {
    let mut column = [b' '; COLUMN];
    let mut rest = number.unsigned_abs();
    let mut first = COLUMN;
    while rest > 0 || first == COLUMN {
        first -= 1;
        column[first] = b'0' + (rest % 10) as u8;
        rest /= 10;
    }
    if number < 0 {
        column[first - 1] = b'-';
    }
    column
}

/// The number of a well-formed column: spaces, then a minus or none, then digits. There is no leading
/// zero, unless the number is zero, and then no minus.
pub fn number_of(column: &[u8]) -> Option<i64> {
    let spaces = column.iter().take_while(|byte| **byte == b' ').count();
    let signed = &column[spaces..];
    let digits = signed.strip_prefix(b"-").unwrap_or(signed);
    let (first, others) = digits.split_first()?;
    let leading_zero = *first == b'0' && (!others.is_empty() || signed.len() > digits.len());
    if leading_zero || !digits.iter().all(u8::is_ascii_digit) {
        return None;
    }
    let size = digits
        .iter()
        .fold(0, |size, digit| 10 * size + i64::from(digit - b'0'));
    Some(if signed.len() > digits.len() {
        -size
    } else {
        size
    })
}

/// Writes one line of columns.
fn write_line(numbers: &[i64], text: &mut Vec<u8>) {
    for number in numbers {
        text.extend(column_of(*number));
    }
    text.push(LINE_END);
}

pub const fn card_length(degree: usize) -> usize {
    FIRST_LINE + LINE * (degree + 1)
}

/// The card of a curve, whose sides may be out of range. It has no sum of steps.
pub fn card_of(curve: &Curve) -> Vec<u8> {
    let mut card = Vec::with_capacity(card_length(curve.degree));
    write_line(&[curve.degree as i64], &mut card);
    for rectangle in curve.control_points() {
        write_line(rectangle, &mut card);
    }
    card
}

/// The numbers of the line at an offset, or refusal 11 in byte order.
fn numbers_at<const N: usize>(bytes: &[u8], offset: usize) -> Result<[i64; N], Refusal> {
    let mut numbers = [0; N];
    for (c, number) in numbers.iter_mut().enumerate() {
        let first = offset + COLUMN * c;
        let read = number_of(&bytes[first..first + COLUMN]);
        refuse_if(read.is_none(), 11, first)?;
        *number = read.unwrap_or(0);
    }
    let end = offset + COLUMN * N;
    refuse_if(bytes[end] != LINE_END, 11, end)?;
    Ok(numbers)
}

/// The degree in the first line: refusals 10 (short), 11 and 1.
pub fn degree_of(card: &[u8]) -> Result<usize, Refusal> {
    refuse_if(card.len() < FIRST_LINE, 10, card.len())?;
    let [degree] = numbers_at(card, 0)?;
    refuse_if(degree < 1 || degree > MAX_DEGREE as i64, 1, 0)?;
    Ok(degree as usize)
}

/// The curve of a card, which has a sum of 0, or the card's refusal.
pub fn curve_of(card: &[u8]) -> Result<Curve, Refusal> {
    let mut curve = Curve::ZERO;
    curve.degree = degree_of(card)?;
    refuse_if(card.len() != card_length(curve.degree), 10, card.len())?;
    for k in 0..=curve.degree {
        curve.points[k] = numbers_at(card, FIRST_LINE + LINE * k)?;
    }
    curve.check()?;
    Ok(curve)
}

#[cfg(test)]
mod tests {
    use super::*;
    use crate::draw;
    use crate::rng::Rng;

    /// Document 01's example.
    const CARD: &[u8] = b"         1
         0         1        -3        -3
         1         3         0         2
";

    fn refused(card: &[u8]) -> (u32, usize) {
        let refusal = curve_of(card).unwrap_err();
        (refusal.number, refusal.place)
    }

    /// The example card with some bytes replaced.
    fn changed(offset: usize, text: &str) -> Vec<u8> {
        let mut card = CARD.to_vec();
        card[offset..offset + text.len()].copy_from_slice(text.as_bytes());
        card
    }

    #[test]
    fn reads_and_writes_the_example() {
        let curve = curve_of(CARD).unwrap();
        assert_eq!(curve, Curve::new(&[[0, 1, -3, -3], [1, 3, 0, 2]]));
        assert_eq!(card_of(&curve), CARD);
        assert_eq!(card_of(&curve.with_sum(9)), CARD);
        for (degree, rng) in (1..=MAX_DEGREE).zip(&mut [(); MAX_DEGREE].map(|()| Rng::new(1))) {
            let drawn = draw::curve(rng, degree);
            assert_eq!(curve_of(&card_of(&drawn)), Ok(drawn));
        }
        assert_eq!((card_length(1), card_length(8)), (93, 380));
    }

    #[test]
    fn refuses_in_the_order_of_the_paper() {
        assert_eq!(refused(b"x         "), (10, 10));
        assert_eq!(refused(b"         9x"), (11, 10));
        assert_eq!(refused(b"         9\n"), (1, 0));
        assert_eq!(refused(b"9999999999\n"), (1, 0));
        assert_eq!(refused(b"         1\n"), (10, 11));
        assert_eq!(refused(&[CARD, b"\n"].concat()), (10, 94));
        assert_eq!(refused(&changed(40, "x")), (11, 31));
        assert_eq!(refused(&changed(39, "-0")), (11, 31));
        assert_eq!(refused(&changed(39, "01")), (11, 31));
        assert_eq!(refused(&changed(51, " ")), (11, 51));
        assert_eq!(refused(&changed(50, "xx")), (11, 41));
        assert_eq!(refused(&changed(52, "  16777217")), (2, 1));
        assert_eq!(refused(&changed(11, "9999999999")), (2, 0));
        assert_eq!(refused(&changed(11, "         2")), (3, 0));
    }
}
