//! What a case answers to each call, and what it holds between two.

use super::*;

const CARD: &[u8] = b"         1
         0         1        -3        -3
         1         3         0         2
";

fn numbers(session: &mut Session, call: Call) -> Vec<i64> {
    session.answer(call).numbers
}

fn evaluate(num: u32, den: u32) -> Call {
    Call::Evaluate { num, den }
}

fn subdivide(num: u32, den: u32, kept: Kept) -> Call {
    Call::Subdivide { num, den, kept }
}

#[test]
fn answers_each_call() {
    let (mut session, answer) = Session::open(CARD, false);
    assert_eq!(answer.numbers, [0, 1]);
    assert_eq!(
        numbers(&mut session, evaluate(1, 2)),
        [0, 0, 2, -2, 0, 1, 0]
    );
    assert_eq!(numbers(&mut session, Call::Bounds), [0, 0, 3, -3, 2]);
    let search = Call::Search {
        limits: [0, 4, -3, 3].into(),
        depth: 12,
        budget: 1,
    };
    assert_eq!(numbers(&mut session, search), [0, 1, 0, 0, 1]);
    let pieces = [
        0, 1, 0, 1, -3, -3, 0, 2, -2, 0, 0, 2, -2, 0, 1, 3, 0, 2, 1, 0,
    ];
    assert_eq!(numbers(&mut session, subdivide(1, 2, Kept::Left)), pieces);
    let raised = [0, 2, 0, 1, -3, -3, 0, 2, -3, -1, 0, 2, -2, 0, 2, 0];
    assert_eq!(numbers(&mut session, Call::Elevate), raised);
    assert_eq!(
        numbers(&mut session, evaluate(0, 1)),
        [0, 0, 1, -3, -3, 4, 1]
    );
}

/// A list of boxes from 0 to each of these high resistances; the settings count up from 7.
fn list(highs: &[i32], budget: u32) -> Call {
    let setting = |(high, number): (&i32, u16)| Setting {
        limits: [0, *high, -3, 3].into(),
        number,
    };
    Call::ChooseSetting {
        settings: highs.iter().zip(7..).map(setting).collect(),
        depth: 6,
        budget,
    }
}

/// The load goes up to 3. A chosen setting leaves the curve and its sum as they were.
#[test]
fn chooses_a_setting() {
    let (mut session, _) = Session::open(CARD, false);
    assert_eq!(
        numbers(&mut session, list(&[2, 3, 4, 5], 500)),
        [0, 1, 2, 9]
    );
    assert_eq!(numbers(&mut session, list(&[4], 1)), [0, 1, 0, 7]);
    assert_eq!(numbers(&mut session, list(&[2, 3], 500)), [0, 2, 0, 0]);
    assert_eq!(numbers(&mut session, list(&[], 0)), [16, 0]);
    assert_eq!(numbers(&mut session, list(&[4; 65], 0)), [16, 65]);
    assert_eq!(numbers(&mut session, list(&[4, 5, 0], 0)), [7, 2]);
    assert_eq!(numbers(&mut session, list(&[4, 5], 0)), [9, 0]);
    assert_eq!(
        numbers(&mut session, evaluate(1, 2)),
        [0, 0, 2, -2, 0, 1, 0]
    );
}

#[test]
fn says_last_whether_nothing_was_rounded() {
    let card = b"         1
         0         0         0         0
         4         4         0         0
";
    let (mut session, _) = Session::open(card, false);
    assert_eq!(numbers(&mut session, evaluate(1, 2)), [0, 2, 2, 0, 0, 1, 1]);
    assert_eq!(numbers(&mut session, evaluate(1, 3)), [0, 1, 2, 0, 0, 1, 0]);
    let pieces = [0, 1, 0, 0, 0, 0, 2, 2, 0, 0, 2, 2, 0, 0, 4, 4, 0, 0, 1, 1];
    assert_eq!(numbers(&mut session, subdivide(1, 2, Kept::Left)), pieces);
    let raised = [0, 2, 0, 0, 0, 0, 1, 1, 0, 0, 2, 2, 0, 0, 2, 1];
    assert_eq!(numbers(&mut session, Call::Elevate), raised);
}

/// Values 1, 0, 3 at 8/16: [1, 1] by one sum and [0, 2] by stages, both within two steps.
#[test]
fn reads_a_sixteenth_by_one_sum() {
    let card = b"         2
         1         1         0         0
         0         0         0         0
         3         3         0         0
";
    let (mut session, _) = Session::open(card, true);
    let sixteenths = |j| Call::EvaluateSixteenths { j };
    assert_eq!(
        numbers(&mut session, evaluate(8, 16)),
        [0, 0, 2, 0, 0, 2, 0]
    );
    assert_eq!(numbers(&mut session, sixteenths(8)), [0, 1, 1, 0, 0, 2, 1]);
    assert_eq!(numbers(&mut session, sixteenths(17)), [15, 0]);
    session.answer(subdivide(1, 2, Kept::Right));
    // From 1/2 on, 12/16 of the rest.
    assert_eq!(
        session.answer(sixteenths(12)).line(),
        "         0         2         3         0         0         4         0  7/8\n"
    );
}

#[test]
fn goes_on_after_a_refused_call() {
    let (mut session, _) = Session::open(CARD, true);
    assert_eq!(numbers(&mut session, subdivide(8, 7, Kept::Left)), [5, 0]);
    assert_eq!(numbers(&mut session, evaluate(1, 0)), [4, 0]);
    let line = session.answer(evaluate(2, 4)).line();
    assert_eq!(
        line,
        "         0         0         2        -2         0         1         0  1/2\n"
    );
}

#[test]
fn goes_on_with_the_zero_curve() {
    let card =
        String::from_utf8_lossy(CARD).replace("         0         2\n", "         9         2\n");
    let (mut session, answer) = Session::open(card.as_bytes(), true);
    assert_eq!(answer.line(), "         3         1\n");
    let sixteenths = Call::EvaluateSixteenths { j: 17 };
    let list_with_bad_box = list(&[0], 0);
    for call in [
        Call::Bounds,
        Call::Elevate,
        evaluate(1, 0),
        sixteenths,
        list_with_bad_box,
    ] {
        assert_eq!(numbers(&mut session, call), [1, 0]);
    }
    assert_eq!(numbers(&mut session, list(&[], 0)), [16, 0]);
    assert_eq!(numbers(&mut session, set_sum(5)), [0, 5]);
    assert_eq!(numbers(&mut session, Call::Elevate), [1, 0]);
}

fn set_sum(sum: u16) -> Call {
    Call::SetSum { sum }
}

/// The last number but one of an answer, the sum of steps.
fn sum_of(session: &mut Session, call: Call) -> i64 {
    let numbers = numbers(session, call);
    numbers[numbers.len() - 2]
}

/// A line of degree 1 is cut, raised to degree 2 and cut again, and the readings add the degree at hand.
#[test]
fn shows_the_sum_of_the_curve() {
    let (mut session, _) = Session::open(CARD, false);
    assert_eq!(sum_of(&mut session, evaluate(1, 2)), 1);
    assert_eq!(sum_of(&mut session, subdivide(1, 2, Kept::Left)), 1);
    assert_eq!(sum_of(&mut session, Call::Elevate), 2);
    assert_eq!(sum_of(&mut session, subdivide(1, 2, Kept::Right)), 4);
    let sixteenths = Call::EvaluateSixteenths { j: 16 };
    assert_eq!(sum_of(&mut session, sixteenths), 6);
    assert_eq!(numbers(&mut session, set_sum(65_533)), [0, 65_533]);
    assert_eq!(sum_of(&mut session, evaluate(1, 2)), 65_535);
    assert_eq!(sum_of(&mut session, subdivide(1, 2, Kept::Left)), 65_535);
    assert_eq!(sum_of(&mut session, evaluate(1, 2)), 65_537);
}

/// 9,362 cuts of degree 7 leave one step, which a raising takes.
#[test]
fn reaches_the_end_of_the_sum_by_cuts() {
    let rectangle = columns_of(&[0; 4]);
    let card = format!(
        "{}\n{}",
        columns_of(&[7]),
        format!("{rectangle}\n").repeat(8)
    );
    let (mut session, _) = Session::open(card.as_bytes(), false);
    for cuts in 1..=9_362 {
        assert_eq!(sum_of(&mut session, subdivide(1, 2, Kept::Left)), 7 * cuts);
    }
    assert_eq!(numbers(&mut session, subdivide(1, 2, Kept::Left)), [17, 0]);
    assert_eq!(sum_of(&mut session, Call::Elevate), 65_535);
    assert_eq!(sum_of(&mut session, evaluate(1, 2)), 65_543);
    assert_eq!(numbers(&mut session, Call::Elevate), [6, 0]);
    assert_eq!(numbers(&mut session, subdivide(1, 2, Kept::Left)), [17, 0]);
}

/// A curve whose sum has no room left is read and not cut, and stays as it was, its place too.
#[test]
fn goes_on_after_a_sum_past_its_end() {
    let (mut session, _) = Session::open(CARD, true);
    session.answer(subdivide(1, 2, Kept::Right));
    let before = numbers(&mut session, evaluate(1, 2));
    assert_eq!(numbers(&mut session, set_sum(u16::MAX)), [0, 65_535]);
    let walk = Call::Search {
        limits: [0, 4, -3, 3].into(),
        depth: 1,
        budget: 1,
    };
    for call in [
        subdivide(1, 2, Kept::Left),
        Call::Elevate,
        walk,
        list(&[4], 1),
    ] {
        assert_eq!(numbers(&mut session, call), [17, 0]);
    }
    assert_eq!(numbers(&mut session, set_sum(1)), [0, 1]);
    assert_eq!(numbers(&mut session, evaluate(1, 2)), before);
    let read = session.answer(evaluate(1, 2)).line();
    assert!(read.ends_with("         2         0  3/4\n"), "{read}");
}

#[test]
fn shows_places_of_accepted_readings_only() {
    let (mut session, answer) = Session::open(CARD, true);
    assert_eq!(answer.place, None);
    let cut = session.answer(subdivide(1, 3, Kept::Right));
    assert_eq!(cut.place, None);
    let read = session.answer(evaluate(1, 4)).line();
    assert!(read.ends_with("         2         0  1/2\n"), "{read}");
    assert_eq!(
        session.answer(evaluate(5, 4)).line(),
        "         5         0\n"
    );
}
