//! The corners, as explicit lists: limits and one beyond, ends, powers of ten, lengths about each bound, sums about
//! the largest, every exponent of a float; and what is wrong with a card. They are drawn often.

use crate::card::{COLUMN, FIRST_LINE, LINE};
use crate::model::{ohm_bits, MAX_DEGREE, MAX_DEN, MAX_SIDE, MAX_SUM, SIXTEENTHS};
use crate::rng::Rng;
use crate::search::{MAX_BUDGET, MAX_DEPTH, MAX_RECORDS};

/// Sides in range: ends, about zero, and where a card's number gets one digit more.
#[rustfmt::skip]
pub const SIDES: [i64; 25] = [
    -MAX_SIDE, 1 - MAX_SIDE, -10_000_000, -9_999_999, -1_000_000, -999_999, -1_025, -1_024, -101, -100,
    -10, -9, -1, 0, 1, 9, 10, 99, 100, 1_023, 99_999, 100_000, 10_000_000, MAX_SIDE - 1, MAX_SIDE,
];

/// Sides out of range: one beyond, and at the ends of 32 bits.
#[rustfmt::skip]
pub const FAR_SIDES: [i64; 6] = [
    MAX_SIDE + 1, -MAX_SIDE - 1, 999_999_999, -999_999_999, 2_147_483_647, -2_147_483_648,
];

/// The same for a card, past the ends of 32 bits and as far as a column goes.
#[rustfmt::skip]
pub const FAR_COLUMNS: [i64; 6] = [
    MAX_SIDE + 1, -MAX_SIDE - 1, -999_999_999, 2_147_483_648, 4_294_967_297, 9_999_999_999,
];

/// Degrees that are refused, some of them with a degree in their low bits.
#[rustfmt::skip]
pub const FAR_DEGREES: [i32; 10] = [
    0, MAX_DEGREE as i32 + 1, MAX_DEGREE as i32 + 2, 257, 65_538, i32::MAX, -1, -253, i32::MIN, i32::MIN + 3,
];

/// Sums out of range, some of them with a small sum in their low bits.
const FAR_SUMS: [i32; 7] = [65_536, 65_545, i32::MAX, -1, -9, -65_536, i32::MIN];

/// Lengths of a measurement, mostly accepted ones. The last has one in its low bits.
pub const MEASURED: [usize; 16] = [0, 1, 2, 2, 2, 2, 2, 2, 3, 3, 3, 3, 3, 4, 5, 258];

/// Accepted parameters: the ends and the middle in several terms, and beside the ends.
#[rustfmt::skip]
pub const PARAMETERS: [(u32, u32); 14] = [
    (0, 1), (1, 1), (7, 7), (0, MAX_DEN), (MAX_DEN, MAX_DEN), (1, 2), (2, 4), (MAX_DEN / 2, MAX_DEN),
    (1, 3), (2, 3), (1, MAX_DEN), (MAX_DEN - 1, MAX_DEN), (1, MAX_DEN - 1), (MAX_DEN - 2, MAX_DEN - 1),
];

/// Parameters refused with 4 and with 5.
#[rustfmt::skip]
pub const FAR_PARAMETERS: [(u32, u32); 10] = [
    (0, 0), (1, 0), (0, MAX_DEN + 1), (u32::MAX, MAX_DEN + 1), (1, u32::MAX), (1, (1 << 31) + 1),
    (2, 1), (8, 7), (MAX_DEN + 1, MAX_DEN), (u32::MAX, 1),
];

/// Dens that leave exact curves room at every degree or at most degrees.
pub const EXACT_DENS: [i64; 11] = [2, 3, 4, 5, 7, 8, 10, 16, 100, 1_000, MAX_DEN as i64];

/// Numbers above 16, some of them with a number from 0 to 16 in their low bits.
#[rustfmt::skip]
pub const FAR_SIXTEENTHS: [u32; 8] = [
    SIXTEENTHS + 1, 18, 32, 256, 272, 65_544, (1 << 31) + 3, u32::MAX,
];

pub const FAR_DEPTHS: [u32; 5] = [MAX_DEPTH + 1, MAX_DEPTH + 2, 256, 65_536, u32::MAX];
pub const BUDGETS: [u32; 12] = [1, 2, 3, 4, 5, 6, 7, 8, 63, 127, MAX_BUDGET - 1, MAX_BUDGET];
pub const FAR_BUDGETS: [u32; 5] = [0, MAX_BUDGET + 1, 65_536, 65_537, u32::MAX];

/// Boxes that are refused: crossed, empty, and with a side out of range.
#[rustfmt::skip]
pub const FAR_BOXES: [[i64; 4]; 10] = [
    [1, 0, 0, 1], [0, 1, 1, 0], [3, 3, 0, 1], [0, 1, -3, -3], [0, 0, 0, 0], [-MAX_SIDE - 1, 0, 0, 1],
    [0, MAX_SIDE + 1, 0, 1], [0, 1, -999_999_999, 0], [0, 1, 0, 2_147_483_647],
    [MAX_SIDE + 1, MAX_SIDE + 2, 0, 1],
];

/// Lengths of a list of settings, and those that are refused, some with a good one in their low bits.
pub const LISTS: [usize; 8] = [1, 1, 2, 3, 5, 8, MAX_RECORDS - 1, MAX_RECORDS];
pub const FAR_LISTS: [usize; 7] = [0, MAX_RECORDS + 1, MAX_RECORDS + 2, 128, 256, 320, 65_600];

/// Lengths of a buffer that a refused call is lent.
pub const LENGTHS: [usize; 8] = [0, 1, 3, 4, 15, 16, 38, 60];

/// A length about a bound: mostly enough, now and then one too few, none, or any.
pub fn length(rng: &mut Rng, needed: usize) -> usize {
    match rng.below(32) {
        0 => needed.saturating_sub(1),
        1 => rng.up_to(needed),
        2 => rng.pick(&[0, 0, needed / 2]),
        3..=6 => needed + 1,
        7..=10 => needed + 2 + rng.up_to(6),
        _ => needed,
    }
}

/// A sum of steps. With one in four a call that adds so many just reaches the largest, stays one below or passes it,
/// and some are out of range.
pub fn sum(rng: &mut Rng, more: usize) -> i32 {
    match rng.below(16) {
        0..=3 => (MAX_SUM - more + rng.up_to(2) - 1).min(MAX_SUM) as i32,
        4 => rng.pick(&FAR_SUMS),
        5..=11 => rng.pick(&[0, 1, 255, 256, 32_767, 32_768]),
        _ => (rng.draw() as u16).into(),
    }
}

const FRACTION: u32 = (1 << 23) - 1;
/// The first of the bits behind the leading one, which tells a quiet not-a-number.
const QUIET: u32 = 1 << 22;

/// The first, the middle and the last fraction, each with its neighbours.
const FRACTIONS: [u32; 7] = [0, 1, QUIET - 1, QUIET, QUIET + 1, FRACTION - 1, FRACTION];

/// The exponent fields of a float with either sign in front.
const FIELDS: usize = 512;
const FLOATS: usize = FIELDS * FRACTIONS.len();

/// The corners of the single-precision numbers, by their bits: every exponent with both signs.
fn float(index: usize) -> u32 {
    ((index / FRACTIONS.len()) as u32) << 23 | FRACTIONS[index % FRACTIONS.len()]
}

pub fn floats() -> impl Iterator<Item = u32> {
    (0..FLOATS).map(float)
}

/// A resistance or a reactance by its bits, mostly an accepted one.
pub fn load(rng: &mut Rng) -> u32 {
    match rng.below(16) {
        0 | 1 => float(rng.up_to(FLOATS - 1)),
        2 => ohm_bits(rng.pick(&FAR_SIDES)),
        3 => rng.draw() as u32,
        4 | 5 => ohm_bits(rng.pick(&SIDES)).wrapping_add_signed(rng.between(-2, 2) as i32),
        6..=8 => ohm_bits(rng.between(-MAX_SIDE, MAX_SIDE)),
        // Half steps, and any fraction up to 16,384 ohms.
        9..=11 => ohm_bits(2 * rng.between(-50_000, 49_999) + 1) - (1 << 23),
        _ => {
            let field = rng.between(90, 141) as u32;
            (rng.draw() as u32 & 0x807f_ffff) | (field << 23)
        }
    }
}

/// A spread, mostly with no minus.
pub fn spread(rng: &mut Rng) -> u32 {
    let minus = u32::from(rng.one_in(16)) << 31;
    (load(rng) & 0x7fff_ffff) | minus
}

/// Columns that are malformed, and well-formed ones on both sides of a limit.
#[rustfmt::skip]
const COLUMNS: [&[u8; 10]; 26] = [
    b"9999999999", b"-999999999", b"  16777216", b"  16777217", b" -16777216", b" -16777217",
    b"2147483648", b"4294967296", b"         0", b"        -0", b"        01", b"0000000001",
    b"       -01", b"          ", b"        +1", b"         -", b"       --1", b"       - 1",
    b"1         ", b"       1 2", b"      1e05", b"       1.0", b"\t        1", b"        1\n",
    b"        1\0", b"\xff\xff\xff\xff\xff\xff\xff\xff\xff\xff",
];

/// A byte changed, swapped, inserted or removed; the text cut short or made too long.
pub fn damage(rng: &mut Rng, text: &mut Vec<u8>) {
    let Some(last) = text.len().checked_sub(1) else {
        return;
    };
    let place = rng.up_to(last);
    match rng.below(8) {
        0 => {
            let (added, filler) = (rng.pick(&[1, 1, 2, 10, 11, 41, 82, 400, 5_000]), byte(rng));
            text.resize(text.len() + added, filler);
        }
        1 => text.truncate(place),
        2 => text.insert(place, byte(rng)),
        3 => drop(text.remove(place)),
        4 => text.swap(place, rng.up_to(last)),
        _ => text[place] = byte(rng),
    }
}

/// Any byte, but mostly one that a card has or nearly has.
pub fn byte(rng: &mut Rng) -> u8 {
    let any = rng.draw() as u8;
    if rng.one_in(4) {
        return any;
    }
    rng.pick(b" \n-0123456789+.,x\t\r\0/:")
}

/// Puts another column into one of the lines after the first.
pub fn put_column(rng: &mut Rng, card: &mut [u8]) {
    let line = FIRST_LINE + LINE * rng.below((card.len() / LINE) as u64) as usize;
    let first = line + COLUMN * rng.up_to(3);
    card[first..first + COLUMN].copy_from_slice(&rng.pick(&COLUMNS)[..]);
}

/// Puts another first line.
pub fn put_degree(rng: &mut Rng, card: &mut [u8]) {
    let line = format!("{:10}\n", rng.between(-1, MAX_DEGREE as i64 + 4));
    card[..FIRST_LINE].copy_from_slice(line.as_bytes());
    if rng.one_in(3) {
        card[..COLUMN].copy_from_slice(&rng.pick(&COLUMNS)[..]);
    }
    if rng.one_in(4) {
        card[COLUMN] = byte(rng);
    }
}
