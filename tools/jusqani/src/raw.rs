//! The exported calls on slices, one thin function for each, exactly as `include/jusqani.h` has them.
//!
//! These are the only unsafe blocks of the tools. Each hands over slices as pointers with their own
//! lengths, and the exact flag or what was found as a pointer to one number. Such a pointer is never null,
//! `&` and `&mut` rule out that a buffer that is written overlaps another, and a call keeps no pointer:
//! that is all that the header asks of its caller. The symbols have the header's version in their names, so
//! that a library with other calls does not link.
#![allow(unsafe_code)]

use crate::Setting;

mod foreign {
    use super::Setting;

    extern "C" {
        pub fn jusqani_evaluate_v2(
            curve: *const i32,
            curve_length: u64,
            num: u32,
            den: u32,
            load: *mut i32,
            load_length: u64,
            ohms: *mut f32,
            ohms_length: u64,
            exact: *mut u32,
        ) -> u64;
        pub fn jusqani_evaluate_sixteenths_v2(
            curve: *const i32,
            curve_length: u64,
            j: u32,
            load: *mut i32,
            load_length: u64,
            ohms: *mut f32,
            ohms_length: u64,
            exact: *mut u32,
        ) -> u64;
        pub fn jusqani_subdivide_v2(
            curve: *const i32,
            curve_length: u64,
            num: u32,
            den: u32,
            left: *mut i32,
            left_length: u64,
            right: *mut i32,
            right_length: u64,
            exact: *mut u32,
        ) -> u64;
        pub fn jusqani_elevate_v2(
            curve: *const i32,
            curve_length: u64,
            raised: *mut i32,
            raised_length: u64,
            exact: *mut u32,
        ) -> u64;
        pub fn jusqani_bounds_v2(
            curve: *const i32,
            curve_length: u64,
            rect: *mut i32,
            rect_length: u64,
        ) -> u64;
        pub fn jusqani_search_v2(
            curve: *const i32,
            curve_length: u64,
            limits: *const i32,
            limits_length: u64,
            depth: u32,
            budget: u32,
            verdict: *mut u32,
            verdict_length: u64,
        ) -> u64;
        pub fn jusqani_choose_setting_v2(
            curve: *const i32,
            curve_length: u64,
            settings: *const Setting,
            settings_length: u64,
            depth: u32,
            budget: u32,
            choice: *mut u32,
            choice_length: u64,
        ) -> u64;
        pub fn jusqani_enclose_v2(
            ohms: *const f32,
            ohms_length: u64,
            rect: *mut i32,
            rect_length: u64,
            found: *mut u32,
        ) -> u64;
        pub fn jusqani_read_card_v2(
            card: *const u8,
            card_length: u64,
            curve: *mut i32,
            curve_length: u64,
        ) -> u64;
        pub fn jusqani_write_card_v2(
            curve: *const i32,
            curve_length: u64,
            card: *mut u8,
            card_length: u64,
        ) -> u64;
        pub fn jusqani_panel_v2(
            card: *const u8,
            card_length: u64,
            num: u32,
            den: u32,
            out: *mut u8,
            out_length: u64,
        ) -> u32;
    }
}

/// A slice that a call reads, as a pointer and a length.
#[inline]
fn read<T>(slice: &[T]) -> (*const T, u64) {
    (slice.as_ptr(), slice.len() as u64)
}

/// A slice that a call writes, as a pointer and a length.
#[inline]
fn written<T>(slice: &mut [T]) -> (*mut T, u64) {
    (slice.as_mut_ptr(), slice.len() as u64)
}

/// Evaluates a curve at num/den: the load's sides in steps and in ohms, and the exact flag.
#[inline]
pub fn evaluate(
    curve: &[i32],
    num: u32,
    den: u32,
    load: &mut [i32],
    ohms: &mut [f32],
    exact: &mut u32,
) -> u64 {
    let (curve, load, ohms) = (read(curve), written(load), written(ohms));
    // Sound: three slices with their lengths, two of them and the flag lent alone (see the module).
    unsafe {
        foreign::jusqani_evaluate_v2(
            curve.0, curve.1, num, den, load.0, load.1, ohms.0, ohms.1, exact,
        )
    }
}

/// Evaluates a curve at j/16 by its whole Bernstein sum, rounded once: the same results.
#[inline]
pub fn evaluate_sixteenths(
    curve: &[i32],
    j: u32,
    load: &mut [i32],
    ohms: &mut [f32],
    exact: &mut u32,
) -> u64 {
    let (curve, load, ohms) = (read(curve), written(load), written(ohms));
    // Sound: three slices with their lengths, two of them and the flag lent alone (see the module).
    unsafe {
        foreign::jusqani_evaluate_sixteenths_v2(
            curve.0, curve.1, j, load.0, load.1, ohms.0, ohms.1, exact,
        )
    }
}

/// Subdivides a curve at num/den into two curves of its degree, with the exact flag.
#[inline]
pub fn subdivide(
    curve: &[i32],
    num: u32,
    den: u32,
    left: &mut [i32],
    right: &mut [i32],
    exact: &mut u32,
) -> u64 {
    let (curve, left, right) = (read(curve), written(left), written(right));
    // Sound: three slices with their lengths, two of them and the flag lent alone (see the module).
    unsafe {
        foreign::jusqani_subdivide_v2(
            curve.0, curve.1, num, den, left.0, left.1, right.0, right.1, exact,
        )
    }
}

/// Raises a curve's degree by one, with the exact flag.
#[inline]
pub fn elevate(curve: &[i32], raised: &mut [i32], exact: &mut u32) -> u64 {
    let (curve, raised) = (read(curve), written(raised));
    // Sound: two slices with their lengths, the second and the flag lent alone (see the module).
    unsafe { foreign::jusqani_elevate_v2(curve.0, curve.1, raised.0, raised.1, exact) }
}

/// The least rectangle that holds all rectangles of a curve.
#[inline]
pub fn bounds(curve: &[i32], rect: &mut [i32]) -> u64 {
    let (curve, rect) = (read(curve), written(rect));
    // Sound: two slices with their lengths, the second lent alone (see the module).
    unsafe { foreign::jusqani_bounds_v2(curve.0, curve.1, rect.0, rect.1) }
}

/// Decides whether a curve stays in a box.
#[inline]
pub fn search(curve: &[i32], limits: &[i32], depth: u32, budget: u32, verdict: &mut [u32]) -> u64 {
    let (curve, limits, verdict) = (read(curve), read(limits), written(verdict));
    // Sound: three slices with their lengths, the last lent alone (see the module).
    unsafe {
        foreign::jusqani_search_v2(
            curve.0, curve.1, limits.0, limits.1, depth, budget, verdict.0, verdict.1,
        )
    }
}

/// Chooses the first setting of a list in whose box a curve stays.
#[inline]
pub fn choose_setting(
    curve: &[i32],
    settings: &[Setting],
    depth: u32,
    budget: u32,
    choice: &mut [u32],
) -> u64 {
    let (curve, list, choice) = (read(curve), read(settings), written(choice));
    // Sound: three slices with their lengths, the last lent alone (see the module). A setting is laid out as
    // the header's struct.
    unsafe {
        foreign::jusqani_choose_setting_v2(
            curve.0, curve.1, list.0, list.1, depth, budget, choice.0, choice.1,
        )
    }
}

/// Encloses what the bridge measured in a rectangle, or finds that there is no carrier.
#[inline]
pub fn enclose(ohms: &[f32], rect: &mut [i32], found: &mut u32) -> u64 {
    let (ohms, rect) = (read(ohms), written(rect));
    // Sound: two slices with their lengths, the second and the number lent alone (see the module).
    unsafe { foreign::jusqani_enclose_v2(ohms.0, ohms.1, rect.0, rect.1, found) }
}

/// Reads a card's curve.
#[inline]
pub fn read_card(card: &[u8], curve: &mut [i32]) -> u64 {
    let (card, curve) = (read(card), written(curve));
    // Sound: two slices with their lengths, the second lent alone (see the module).
    unsafe { foreign::jusqani_read_card_v2(card.0, card.1, curve.0, curve.1) }
}

/// Writes a curve as a card.
#[inline]
pub fn write_card(curve: &[i32], card: &mut [u8]) -> u64 {
    let (curve, card) = (read(curve), written(card));
    // Sound: two slices with their lengths, the second lent alone (see the module).
    unsafe { foreign::jusqani_write_card_v2(curve.0, curve.1, card.0, card.1) }
}

/// Reads a card and evaluates its curve at num/den: sixteen bytes of load, and a refusal without its place.
#[inline]
pub fn panel(card: &[u8], num: u32, den: u32, out: &mut [u8]) -> u32 {
    let (card, out) = (read(card), written(out));
    // Sound: two slices with their lengths, the second lent alone (see the module).
    unsafe { foreign::jusqani_panel_v2(card.0, card.1, num, den, out.0, out.1) }
}

#[cfg(test)]
mod tests {
    use super::*;
    use crate::examples::{settings, values};
    use crate::{curve_length, CHOICE_LENGTH, RECT_LENGTH};

    /// No degree is a 1, and a side that a slice lacks a 2 at its rectangle. Numbers past rectangle n are not read.
    #[test]
    fn refuses_what_a_curve_lacks() {
        let mut line = values(&[0, 4]).numbers;
        let answer = |curve: &[i32]| bounds(curve, &mut [0; RECT_LENGTH]);
        assert_eq!(answer(&[]), 1);
        for length in 1..curve_length(1) {
            let rectangle = length.saturating_sub(2) / RECT_LENGTH;
            assert_eq!(answer(&line[..length]), 2 | (rectangle as u64) << 32);
        }
        line[curve_length(1)..].fill(i32::MIN);
        assert_eq!([&line[..curve_length(1)], &line].map(answer), [0, 0]);
        line[0] = -1;
        assert_eq!(answer(&line), 1);
    }

    /// One number lacks its reactance, and of more than three the spread counts as not a number.
    #[test]
    fn refuses_a_measured_load_of_a_wrong_length() {
        let answer = |ohms: &[f32]| enclose(ohms, &mut [0; RECT_LENGTH], &mut 0);
        assert_eq!(answer(&[0.0]), 13 | 1 << 32);
        assert_eq!(answer(&[0.0; 4]), 13 | 2 << 32);
        assert_eq!(answer(&[0.0, f32::NAN, 0.0, 0.0, 0.0]), 13 | 1 << 32);
        assert_eq!(answer(&[f32::NAN, 0.0, 0.0, 0.0]), 13);
    }

    /// The room for a choice is tried last, and what lies past the choice is kept.
    #[test]
    fn stores_a_choice_in_front() {
        let good = &settings(&[([0, 5, 0, 1], 1)]);
        let mut choice = [7; CHOICE_LENGTH + 1];
        let curve = values(&[0, 4]).numbers;
        let short = choose_setting(&curve, good, 12, 5, &mut choice[..2]);
        assert_eq!((short, choice), (12 | 3 << 32, [7; 4]));
        let short = choose_setting(&curve, good, 12, 0, &mut choice[..2]);
        assert_eq!((short, choice), (9, [7; 4]));
        let chosen = choose_setting(&curve, good, 12, 5, &mut choice);
        assert_eq!((chosen, choice), (0, [1, 0, 1, 7]));
    }
}
