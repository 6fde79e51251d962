//! Document 01's examples and document 02's on the typed calls.

use crate::*;

const CARD: &[u8] = b"         1
         0         1        -3        -3
         1         3         0         2
";

/// A curve with these resistance values, low equal to high, and reactance zero.
pub fn values(values: &[i32]) -> Curve {
    let point = |value: &i32| Rect::from([*value, *value, 0, 0]);
    Curve::new(&values.iter().map(point).collect::<Vec<_>>())
}

/// The resistance sides of a curve's rectangles.
fn resistances(curve: Curve) -> Vec<[i32; 2]> {
    let resistances = curve.control_points().map(|point| point.resistance);
    resistances.map(|side| [side.low, side.high]).collect()
}

fn refused<T>(number: u32, place: u32) -> Result<T, Refusal> {
    Err(Refusal { number, place })
}

#[test]
fn evaluates_the_papers_card() {
    let curve = Curve::read_card(CARD).unwrap();
    let half = curve.evaluate(1, 2).unwrap();
    assert_eq!(half.load, [0, 2, -2, 0].into());
    assert_eq!(half.ohms, [0.0, 0.001953125, -0.001953125, 0.0]);
    assert_eq!(curve.evaluate(2, 4), Ok(half));
    let ends = [(0, 1), (7, 7)].map(|(num, den)| curve.evaluate(num, den).unwrap().load);
    assert!(curve.control_points().eq(ends));
    assert_eq!(curve.bounds(), Ok([0, 3, -3, 2].into()));
    assert_eq!(
        values(&[-1, -1]).evaluate(0, 1).unwrap().ohms[0],
        -0.0009765625
    );
}

#[test]
fn subdivides_and_elevates() {
    let Subdivision { left, right, .. } = values(&[1, 0, 3]).subdivide(1, 2).unwrap();
    assert_eq!(resistances(left), [[1, 1], [0, 1], [0, 2]]);
    assert_eq!(resistances(right), [[0, 2], [1, 2], [3, 3]]);
    let raised = values(&[0, 0, -1]).elevate().unwrap().curve;
    assert_eq!(resistances(raised), [[0, 0], [0, 0], [-1, 0], [-1, -1]]);
    assert_eq!(raised.degree(), 3);
    assert_eq!(values(&[0; 9]).elevate(), refused(6, 0));
}

/// Document 02, point 1.
#[test]
fn says_whether_nothing_was_rounded() {
    let exact = |curve: Curve, num, den| {
        let evaluated = curve.evaluate(num, den).unwrap().exact;
        assert_eq!(curve.subdivide(num, den).unwrap().exact, evaluated);
        evaluated
    };
    assert!(exact(values(&[0, 4]), 1, 2));
    assert!(!exact(values(&[1, 0, 3]), 1, 2));
    assert!(exact(values(&[1, 0, 3]), 0, 1) && exact(values(&[1, 0, 3]), 7, 7));
    // The resistance [2, 2] is exact, but the reactance is 1/2.
    let line = [[0; RECT_LENGTH], [4, 4, 1, 1]].map(Rect::from);
    assert!(!exact(Curve::new(&line), 1, 2));
    assert!(!values(&[0, 1]).elevate().unwrap().exact);
    assert!(values(&[0, 2]).elevate().unwrap().exact);
}

/// The rectangle of a plain load, or of one with a spread.
fn enclosed(ohms: &[f32]) -> Result<[i32; RECT_LENGTH], Refusal> {
    let measurement = match *ohms {
        [resistance, reactance] => Measurement::Load {
            resistance,
            reactance,
        },
        [resistance, reactance, spread] => Measurement::LoadWithSpread {
            resistance,
            reactance,
            spread,
        },
        _ => unreachable!("{ohms:?} is no load"),
    };
    Ok(measurement.enclose()?.expect("a rectangle").into())
}

/// Document 02, point 2.
#[test]
fn encloses_a_measured_load() {
    assert_eq!(Measurement::NoCarrier.enclose(), Ok(None));
    assert_eq!(enclosed(&[50.0, 0.0]), Ok([51_200, 51_200, 0, 0]));
    assert_eq!(enclosed(&[-0.0009765625, 0.0]), Ok([-1, -1, 0, 0]));
    assert_eq!(enclosed(&[0.0001, -0.0001]), Ok([0, 1, -1, 0]));
    assert_eq!(enclosed(&[-0.0, -0.0]), Ok([0; 4]));
    assert_eq!(enclosed(&[-0.0, 1.0, -0.0]), Ok([0, 0, 1_024, 1_024]));
    let measured = enclosed(&[50.0003, -0.1, 0.25]);
    assert_eq!(measured, Ok([50_944, 51_457, -359, 154]));
    // Each is half a step, and each is rounded by itself.
    let half = 0.00048828125;
    assert_eq!(enclosed(&[half, -half, half]), Ok([-1, 2, -2, 1]));
}

#[test]
fn refuses_a_measured_load_along_the_limits() {
    const LIMIT: f32 = 16_384.0;
    const STEP: f32 = 1.0 / 1_024.0;
    let ends = [MAX_SIDE, MAX_SIDE, -MAX_SIDE, -MAX_SIDE];
    assert_eq!(enclosed(&[LIMIT, -LIMIT]), Ok(ends));
    let whole = [-MAX_SIDE, MAX_SIDE, -MAX_SIDE, MAX_SIDE];
    assert_eq!(enclosed(&[0.0, 0.0, LIMIT]), Ok(whole));
    let beyond = LIMIT.next_up();
    assert_eq!(enclosed(&[beyond, f32::NAN]), refused(13, 0));
    assert_eq!(enclosed(&[-LIMIT, -beyond, -1.0]), refused(13, 1));
    assert_eq!(enclosed(&[LIMIT, 0.0, f32::INFINITY]), refused(13, 2));
    assert_eq!(enclosed(&[LIMIT, 0.0, -1.0e-45]), refused(13, 2));
    assert_eq!(enclosed(&[LIMIT, LIMIT, STEP]), refused(14, 0));
    assert_eq!(enclosed(&[LIMIT - STEP, -LIMIT, STEP]), refused(14, 1));
}

/// Document 02, point 4.
#[test]
fn rounds_a_sum_once() {
    let curve = values(&[1, 0, 3]);
    let half = curve.evaluate_sixteenths(8).unwrap();
    assert_eq!((half.load, half.exact), ([1, 1, 0, 0].into(), true));
    assert_eq!(half.ohms, [0.0009765625, 0.0009765625, 0.0, 0.0]);
    let staged = curve.evaluate(8, SIXTEENTHS).unwrap();
    assert_eq!((staged.load, staged.exact), ([0, 2, 0, 0].into(), false));
    // Just below 1, 0 to 1.
    let before = curve.evaluate_sixteenths(7).unwrap();
    assert_eq!((before.load, before.exact), ([0, 1, 0, 0].into(), false));
    for (j, end) in [(0, 0), (SIXTEENTHS, 2)] {
        let read = curve.evaluate_sixteenths(j).unwrap();
        let point = curve.control_points().nth(end);
        assert_eq!((Some(read.load), read.exact), (point, true));
    }
    assert_eq!(curve.evaluate_sixteenths(17), refused(15, 0));
    assert_eq!(curve.evaluate_sixteenths(u32::MAX), refused(15, 0));
    assert_eq!(Curve::default().evaluate_sixteenths(17), refused(1, 0));
    let too_far = values(&[0, MAX_SIDE + 1]);
    assert_eq!(too_far.evaluate_sixteenths(17), refused(2, 1));
}

#[test]
fn searches_a_box() {
    let curve = values(&[0, 4]);
    let limits = Rect::from([0, 2, 0, 1]);
    let (depth, index) = (1, 1);
    let outside = |count| Verdict::Outside {
        depth,
        index,
        count,
    };
    assert_eq!(curve.search(limits, 2, 5), Ok(outside(5)));
    assert_eq!(curve.search(limits, 2, 4), Ok(Verdict::Spent { count: 4 }));
    assert_eq!(curve.search(limits, 1, 5), Ok(outside(3)));
    let whole = Rect::from([0, 5, 0, 1]);
    assert_eq!(
        curve.search(whole, 12, 8191),
        Ok(Verdict::Inside { count: 1 })
    );
    // At budget 8,191 a walk is never spent: this one looks at every piece down to depth 12.
    let wide = Curve::new(&[Rect::from([-1, 1, -1, 1]); PLACES]);
    let all_pieces = Verdict::Undecided {
        depth: 12,
        index: 0,
        count: 8191,
    };
    assert_eq!(wide.search([0, 1, 0, 1].into(), 12, 8191), Ok(all_pieces));
    // At the high side a load is no longer in the box.
    let undecided = Verdict::Undecided {
        depth: 0,
        index: 0,
        count: 1,
    };
    assert_eq!(curve.search([0, 4, 0, 1].into(), 0, 5), Ok(undecided));
    assert_eq!(curve.search([2, 0, 0, 1].into(), 2, 5), refused(7, 0));
    assert_eq!(curve.search([2, 2, 0, 1].into(), 2, 5), refused(7, 0));
    assert_eq!(curve.search([0, 5, 0, 0].into(), 2, 5), refused(7, 0));
}

/// A list of settings with these limits and numbers.
pub fn settings(records: &[([i32; RECT_LENGTH], u16)]) -> Vec<Setting> {
    let setting = |&(limits, number): &([i32; RECT_LENGTH], u16)| Setting {
        limits: limits.into(),
        number,
    };
    records.iter().map(setting).collect()
}

/// Document 02, point 6. The load goes up to 2, and the bounds to 4: the walk over 0 to 3 looks at three
/// pieces. Over 0 to 2 a walk is not Inside, since 2 is the first value not allowed.
#[test]
fn chooses_the_first_setting_that_fits() {
    let curve = values(&[0, 4, 0]);
    let (narrow, fitting, wide) = ([0, 2, 0, 1], [0, 3, 0, 1], [0, 5, 0, 1]);
    let list = settings(&[(narrow, 9), (fitting, u16::MAX), (wide, 7), (fitting, 7)]);
    let fits = |index, number| Ok(Choice::Fits { index, number });
    // The walk over the narrow box spends its whole budget, and the next has three pieces again.
    assert_eq!(curve.choose_setting(&list, 12, 3), fits(1, u16::MAX));
    assert_eq!(curve.choose_setting(&list, 12, 2), fits(2, 7));
    assert_eq!(curve.choose_setting(&list, 0, 8_191), fits(2, 7));
    assert_eq!(curve.choose_setting(&list[3..], 12, 3), fits(0, 7));
    let none = Ok(Choice::NoneFits);
    assert_eq!(curve.choose_setting(&list[..1], 12, 8_191), none);
    assert_eq!(curve.choose_setting(&list[..2], 12, 2), none);
    // A list of the greatest length whose last record fits.
    let mut full = vec![list[0]; MAX_SETTINGS];
    full[MAX_SETTINGS - 1] = list[2];
    assert_eq!(curve.choose_setting(&full, 1, 3), fits(63, 7));
}

/// 16, then the curve's own, then 7 over the whole list, then 8 and 9.
#[test]
fn refuses_a_list_in_order() {
    let curve = values(&[0, 4]);
    let (good, empty_box) = (([0, 5, 0, 1], 1), ([0, 5, 1, 1], 2));
    let fits_then_bad = settings(&[good, good, empty_box, ([0, MAX_SIDE + 1, 0, 1], 3)]);
    let too_long = [fits_then_bad[3]; MAX_SETTINGS + 1];
    let bad_curve = Curve::default();
    assert_eq!(bad_curve.choose_setting(&[], 13, 0), refused(16, 0));
    assert_eq!(bad_curve.choose_setting(&too_long, 13, 0), refused(16, 65));
    assert_eq!(
        bad_curve.choose_setting(&fits_then_bad, 13, 0),
        refused(1, 0)
    );
    let too_far = values(&[0, MAX_SIDE + 1]);
    assert_eq!(too_far.choose_setting(&fits_then_bad, 13, 0), refused(2, 1));
    assert_eq!(curve.choose_setting(&fits_then_bad, 13, 0), refused(7, 2));
    assert_eq!(curve.choose_setting(&fits_then_bad, 2, 5), refused(7, 2));
    assert_eq!(
        curve.choose_setting(&fits_then_bad[2..], 2, 5),
        refused(7, 0)
    );
    let good = &fits_then_bad[..2];
    assert_eq!(curve.choose_setting(good, 13, 0), refused(8, 0));
    assert_eq!(curve.choose_setting(good, 12, 0), refused(9, 0));
    assert_eq!(curve.choose_setting(good, 12, 8_192), refused(9, 0));
}

#[test]
fn writes_the_card_that_it_reads() {
    let curve = Curve::read_card(CARD).unwrap();
    assert_eq!(curve.card().unwrap(), CARD);
    let mut card = [7; 95];
    assert_eq!(curve.write_card(&mut card), Ok(93));
    assert_eq!(card[93..], [7; 2]);
    assert_eq!(curve.write_card(&mut card[..92]), refused(12, 93));
    assert_eq!(Curve::read_card(&CARD[..92]), refused(10, 92));
}

#[test]
fn refuses_along_the_limits() {
    let end = values(&[0, MAX_SIDE]);
    assert_eq!(end.evaluate(1, MAX_DEN).map(|_| ()), Ok(()));
    assert_eq!(end.evaluate(1, 0), refused(4, 0));
    assert_eq!(end.evaluate(0, MAX_DEN + 1), refused(4, 0));
    assert_eq!(end.evaluate(8, 7), refused(5, 0));
    assert_eq!(values(&[0, MAX_SIDE + 1]).bounds(), refused(2, 1));
    let points = [Rect::default(); PLACES + 2];
    for count in [0, 1, PLACES + 1, PLACES + 2] {
        assert_eq!(Curve::new(&points[..count]).bounds(), refused(1, 0));
    }
}

#[test]
fn compares_curves_up_to_their_degree() {
    let mut other = values(&[1, 2]);
    other.numbers[curve_length(1)] = 5;
    assert_eq!(other, values(&[1, 2]));
    assert_ne!(values(&[1, 2, 0]), values(&[1, 2]));
    assert_ne!(values(&[1, 2]).with_sum(1), values(&[1, 2]));
}

/// Document 02, point 7. A cut adds the degree in both pieces, and a raising 1.
#[test]
fn adds_up_the_steps() {
    let curve = Curve::read_card(CARD).unwrap();
    assert_eq!(curve.sum(), 0);
    let raised = curve.elevate().unwrap().curve;
    assert_eq!((raised.degree(), raised.sum()), (2, 1));
    let Subdivision { left, right, .. } = raised.subdivide(1, 3).unwrap();
    assert_eq!([left.sum(), right.sum()], [3, 3]);
    let last = right.subdivide(0, 1).unwrap().right;
    assert_eq!((last.degree(), last.sum()), (2, 5));
    let raised = last.elevate().unwrap().curve;
    assert_eq!((raised.degree(), raised.sum()), (3, 6));
}

#[test]
fn refuses_a_sum_past_its_end() {
    let wave = values(&[0, 4, 0, 4, 0, 4, 0, 4, 0]);
    let Subdivision { left, right, .. } = wave.with_sum(65_527).subdivide(1, 2).unwrap();
    assert_eq!([left.sum(), right.sum()], [u16::MAX; 2]);
    assert_eq!(wave.with_sum(65_528).subdivide(1, 2), refused(17, 0));
    let line = values(&[0, 4]);
    let raised = line.with_sum(65_534).elevate().unwrap().curve;
    assert_eq!(raised.sum(), u16::MAX);
    assert_eq!(line.with_sum(65_535).elevate(), refused(17, 0));
}

/// A sum outside 0 to 65,535 counts as 65,535.
#[test]
fn counts_a_sum_out_of_range_as_the_largest() {
    for sum in [-1, i32::MIN, 65_536, i32::MAX] {
        let mut line = values(&[0, 4]);
        line.numbers[1] = sum;
        assert_eq!(line.sum(), u16::MAX);
        assert_eq!(line.elevate(), refused(17, 0));
        let inside = Ok(Verdict::Inside { count: 1 });
        assert_eq!(line.search([0, 5, 0, 1].into(), 0, 1), inside);
    }
}

/// Whatever a walk finds, a piece at its depth limit has to have a sum.
#[test]
fn refuses_a_walk_whose_sum_could_pass_its_end() {
    let wave = values(&[0, 4, 0, 4, 0, 4, 0, 4, 0]);
    let whole = [0, 5, 0, 1];
    let inside = Ok(Verdict::Inside { count: 1 });
    let search = |sum, depth| wave.with_sum(sum).search(whole.into(), depth, 1);
    assert_eq!(search(65_535, 0), inside);
    assert_eq!(search(65_535, 1), refused(17, 0));
    assert_eq!(search(65_439, 12), inside);
    assert_eq!(search(65_440, 12), refused(17, 0));
    let list = settings(&[(whole, 7)]);
    let (index, number) = (0, 7);
    let fits = Ok(Choice::Fits { index, number });
    let choose = |sum, depth| wave.with_sum(sum).choose_setting(&list, depth, 1);
    assert_eq!(choose(65_535, 0), fits);
    assert_eq!(choose(65_535, 1), refused(17, 0));
    assert_eq!(choose(65_439, 12), fits);
    assert_eq!(choose(65_440, 12), refused(17, 0));
}

/// 17 is the last of a call's own refusals, and comes before the room alone.
#[test]
fn refuses_a_sum_last() {
    let full = |resistances: &[i32]| values(resistances).with_sum(u16::MAX);
    let line = full(&[0, 4]);
    assert_eq!(full(&[0, MAX_SIDE + 1]).elevate(), refused(2, 1));
    assert_eq!(line.subdivide(1, 0), refused(4, 0));
    assert_eq!(line.subdivide(8, 7), refused(5, 0));
    assert_eq!(full(&[0; 9]).elevate(), refused(6, 0));
    let whole = [0, 5, 0, 1];
    assert_eq!(line.search([0; 4].into(), 12, 1), refused(7, 0));
    assert_eq!(line.search(whole.into(), 13, 1), refused(8, 0));
    assert_eq!(line.search(whole.into(), 12, 0), refused(9, 0));
    let list = settings(&[(whole, 1), ([0; 4], 2)]);
    assert_eq!(line.choose_setting(&[], 12, 1), refused(16, 0));
    assert_eq!(line.choose_setting(&list, 12, 1), refused(7, 1));
    assert_eq!(line.choose_setting(&list[..1], 13, 1), refused(8, 0));
    assert_eq!(line.choose_setting(&list[..1], 12, 0), refused(9, 0));
    let (mut left, mut right, mut exact) = ([7; 9], [7; 10], 7);
    let mut cut =
        |curve: Curve| raw::subdivide(&curve.numbers, 1, 2, &mut left, &mut right, &mut exact);
    assert_eq!([cut(line), cut(line.with_sum(65_534))], [17, 12 | 10 << 32]);
    assert_eq!((left, right, exact), ([7; 9], [7; 10], 7));
}

/// These calls never look at the sum.
#[test]
fn reads_and_writes_at_any_sum() {
    let curve = Curve::read_card(CARD).unwrap();
    let full = curve.with_sum(u16::MAX);
    assert_eq!(full.evaluate(1, 2), curve.evaluate(1, 2));
    assert_eq!(full.evaluate_sixteenths(3), curve.evaluate_sixteenths(3));
    assert_eq!(full.bounds(), curve.bounds());
    assert_eq!(full.card().unwrap(), CARD);
}

/// A piece written and read again is equal but for its sum, which is 0.
#[test]
fn saves_a_piece_without_its_sum() {
    let piece = values(&[1, 0, 3]).subdivide(1, 2).unwrap().right;
    assert_eq!(piece.sum(), 2);
    let again = Curve::read_card(&piece.card().unwrap()).unwrap();
    assert_eq!(again, piece.with_sum(0));
    assert_ne!(again, piece);
}
