//! The plain side: what one would write by hand in Rust for the same slices and the same refusals. One
//! table in place, sides of 32 bits, products of 64 bits, and one division for each side. It works the
//! exact flag out as ours does, from the remainder of each division; it works out no ohms, which ours does.
//! Below it stands the limit: its tests and its copies alone, which no way of making the maps can save.

use crate::calls::{Pieces, CURVE_SIDES};
use jusqani::{CURVE_LENGTH, MAX_DEGREE, MAX_DEN, MAX_SIDE, PLACES, RECT_LENGTH};
use std::hint::black_box;

type Rect = [i32; RECT_LENGTH];
type Points = [Rect; PLACES];

fn points_of(sides: &[i32]) -> Points {
    let mut points = [[0; RECT_LENGTH]; PLACES];
    for (point, sides) in points.iter_mut().zip(sides.chunks_exact(RECT_LENGTH)) {
        point.copy_from_slice(sides);
    }
    points
}

/// The refusal's number: 2 over all rectangles, 3 over all, then 4 and 5. The degree is fixed.
fn refusal(points: &Points, num: u32, den: u32) -> u32 {
    let limits = -MAX_SIDE..=MAX_SIDE;
    if !points.iter().flatten().all(|side| limits.contains(side)) {
        return 2;
    }
    if points.iter().any(|r| r[0] > r[1] || r[2] > r[3]) {
        return 3;
    }
    if !(1..=MAX_DEN).contains(&den) {
        return 4;
    }
    if num > den {
        return 5;
    }
    0
}

/// The sum of steps of both pieces of a cut, or its refusal's number: the same, then 17.
fn piece_sum(points: &Points, sum: u16, num: u32, den: u32) -> Result<u16, u32> {
    match refusal(points, num, den) {
        0 => sum.checked_add(MAX_DEGREE as u16).ok_or(17),
        number => Err(number),
    }
}

/// The affine map of two rectangles at num/den, rounded outward, and whether no division left a remainder.
fn affine(num: i64, den: i64, a: &Rect, b: &Rect) -> (Rect, bool) {
    let sum = |side: usize| (den - num) * i64::from(a[side]) + num * i64::from(b[side]);
    let divided = |sum: i64| (sum.div_euclid(den) as i32, sum.rem_euclid(den) == 0);
    let low = |side: usize| divided(sum(side));
    let high = |side: usize| {
        let (quotient, whole) = divided(-sum(side));
        (-quotient, whole)
    };
    let sides = [low(0), high(1), low(2), high(3)];
    let exact = sides.iter().fold(true, |exact, (_, whole)| exact & whole);
    (sides.map(|(side, _)| side), exact)
}

/// One stage of de Casteljau's table in place: each of the first rectangles becomes the map of itself
/// and the next. The stage is exact where every map is.
pub fn stage(points: &mut [Rect], num: u32, den: u32) -> bool {
    let mut exact = true;
    for k in 1..points.len() {
        let (point, whole) = affine(num.into(), den.into(), &points[k - 1], &points[k]);
        points[k - 1] = point;
        exact &= whole;
    }
    exact
}

fn store(points: &[Rect], out: &mut [i32]) {
    for (out, point) in out.chunks_exact_mut(RECT_LENGTH).zip(points) {
        out.copy_from_slice(point);
    }
}

/// A piece as ours stores it: the degree, the sum, then the sides.
fn store_piece(sum: u16, points: &[Rect], out: &mut [i32; CURVE_LENGTH]) {
    out[0] = MAX_DEGREE as i32;
    out[1] = sum.into();
    store(points, &mut out[CURVE_LENGTH - CURVE_SIDES..]);
}

pub fn evaluate(sides: &[i32], num: u32, den: u32, out: &mut [i32], exact: &mut u32) -> u32 {
    let mut points = points_of(sides);
    let number = refusal(&points, num, den);
    if number != 0 {
        return number;
    }
    let mut whole = true;
    for length in (2..=PLACES).rev() {
        whole &= stage(&mut points[..length], num, den);
    }
    store(&points[..1], out);
    *exact = whole.into();
    0
}

/// The first rectangle of each stage is the left piece; what the stages leave in place is the right one.
pub fn subdivide(
    sum: u16,
    sides: &[i32],
    num: u32,
    den: u32,
    out: &mut Pieces,
    exact: &mut u32,
) -> u32 {
    let mut points = points_of(sides);
    let sum = match piece_sum(&points, sum, num, den) {
        Ok(sum) => sum,
        Err(number) => return number,
    };
    let mut left = points;
    let mut whole = true;
    for length in (2..=PLACES).rev() {
        whole &= stage(&mut points[..length], num, den);
        left[PLACES + 1 - length] = points[0];
    }
    store_piece(sum, &left, &mut out[0]);
    store_piece(sum, &points, &mut out[1]);
    *exact = whole.into();
    0
}

/// Evaluate without its maps: the copy, the tests, and a result of the same size. The compiler does not know
/// where the stored rectangle stands, so that it cannot leave the copy of the others out.
pub fn evaluate_limit(sides: &[i32], num: u32, den: u32, out: &mut [i32], exact: &mut u32) -> u32 {
    let points = points_of(sides);
    let number = refusal(&points, num, den);
    if number != 0 {
        return number;
    }
    let first = black_box(0);
    store(&points[first..], &mut out[..RECT_LENGTH]);
    *exact = 1;
    0
}

/// Subdivide without its maps, in the same way; both pieces are the curve itself with the pieces' sum.
pub fn subdivide_limit(
    sum: u16,
    sides: &[i32],
    num: u32,
    den: u32,
    out: &mut Pieces,
    exact: &mut u32,
) -> u32 {
    let points = points_of(sides);
    let sum = match piece_sum(&points, sum, num, den) {
        Ok(sum) => sum,
        Err(number) => return number,
    };
    let first = black_box(0);
    store_piece(sum, &points[first..], &mut out[0]);
    store_piece(sum, &points[first..], &mut out[1]);
    *exact = 1;
    0
}
