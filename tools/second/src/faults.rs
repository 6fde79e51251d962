//! Planted faults: each changes what the library answered or left, mostly in a rare case, and the comparison must
//! find it.

use crate::ask::Ask;
use crate::compare::{Lent, Trial};
use crate::coverage::{Coverage, CALLS};
use crate::model::Refusal;
use crate::rng::Rng;

/// A fault over a question, its answer and the buffers after it. Words 0 and 1 of a curve are its degree and its
/// sum.
type Fault = fn(&mut Ask, &mut u64, &mut Lent);

/// Word k of a buffer, where it is lent.
fn word(lent: &mut Lent, buffer: usize, k: usize) -> Option<&mut i64> {
    let buffer = lent.buffers.get_mut(buffer)?;
    buffer.words[..buffer.length].get_mut(k)
}

/// Adds to a word that is lent.
fn add(lent: &mut Lent, buffer: usize, k: usize, by: i64) {
    if let Some(word) = word(lent, buffer, k) {
        *word += by;
    }
}

/// A refusal's number, or 0.
fn number(answer: &u64) -> u32 {
    *answer as u32
}

#[rustfmt::skip]
const FAULTS: [(&str, Fault); 31] = [
    ("two sides swapped", |_, a, l| if *a == 0 { l.buffers[0].words.swap(1, 2) }),
    ("a low side a step too low", |_, a, l| if *a == 0 { add(l, 0, 0, -1) }),
    ("a high reactance a step too high", |_, a, l| if *a == 0 { add(l, 0, 3, 1) }),
    ("a side wrong at its limit alone", |_, _, l| if word(l, 0, 0) == Some(&mut -16_777_216) { add(l, 0, 0, 1) }),
    ("an ohm with its last bit turned", |ask, a, l| if *a == 0 && ask.row() < 2 { add(l, 1, 2, 1) }),
    ("minus zero ohms", |ask, a, l| if *a == 0 && ask.row() < 2 && l.buffers[1].words[3] == 0 { add(l, 1, 3, 1 << 31) }),
    ("a flag turned", |_, a, l| if *a == 0 { l.flag ^= 1 }),
    ("a flag dark at degree 8", |ask, a, l| if *a == 0 && ask.row() < 4 && ask.degree() == 8 { l.flag = 0 }),
    ("a refusal that darkens the flag", |_, a, l| if *a != 0 { l.flag = 0 }),
    ("a refusal that stores", |_, a, l| if *a != 0 { add(l, 0, 0, 1) }),
    ("a word stored past a result", |ask, a, l| if *a == 0 && ask.row() == 4 { add(l, 0, 4, 1) }),
    ("a byte stored past a card", |ask, a, l| if *a == 0 && ask.row() == 9 { add(l, 0, 11 + 41 * (ask.degree() + 1), 1) }),
    ("a word stored behind the buffer", |_, a, l| if *a == 0 { let k = l.buffers[0].length; l.buffers[0].words[k] ^= 1 }),
    ("a side changed that was lent for reading", |ask, _, _| if let Ask::Search { curve, .. } = ask { curve.0.reverse() }),
    ("the pieces swapped", |ask, _, l| if ask.row() == 2 { l.buffers.swap(0, 1) }),
    ("a sum one too large in the right piece", |ask, a, l| if *a == 0 && ask.row() == 2 { add(l, 1, 1, 1) }),
    ("a degree that is not raised", |ask, a, l| if *a == 0 && ask.row() == 3 { add(l, 0, 0, -1) }),
    ("a card read with a sum", |ask, a, l| if *a == 0 && ask.row() == 8 { add(l, 0, 1, 1) }),
    ("a count off by one at the budget", |ask, a, l| if let Ask::Search { effort, .. } = ask { if *a == 0 && l.buffers[0].words[3] == i64::from(effort.budget) { add(l, 0, 3, -1) } }),
    ("Undecided told as Spent", |ask, _, l| if ask.row() == 5 && l.buffers[0].words[0] == 4 { add(l, 0, 0, -1) }),
    ("an index that is its piece's neighbour", |ask, _, l| if ask.row() == 5 && l.buffers[0].words[0] == 2 { add(l, 0, 2, 1) }),
    ("the last record of a list is not looked at", |ask, a, l| if *a == 0 && ask.row() == 6 && l.buffers[0].words[1] == 63 { add(l, 0, 0, 1) }),
    ("a found number turned", |ask, a, l| if *a == 0 && ask.row() == 7 { l.flag ^= 3 }),
    ("a place off by one", |_, a, _| if number(a) == 3 && *a >> 32 > 0 { *a -= 1 << 32 }),
    ("a 12 with another length", |_, a, _| if number(a) == 12 { *a ^= 1 << 32 }),
    ("a 12 before a 5", |_, a, l| if number(a) == 5 && l.buffers[0].length < 4 { *a = 12 | 4 << 32 }),
    ("a 17 one step early", |ask, a, _| if let Ask::Elevate { curve } = ask { if *a == 0 && curve.0[1] == 65_534 { *a = 17 } }),
    ("a sum above its range that is accepted", |ask, a, _| if let Ask::Elevate { curve } = ask { if *a == 17 && curve.0[1] > 65_535 { *a = 0 } }),
    ("a degree below 0 told as a 2", |ask, a, _| if let Ask::Bounds { curve } = ask { if *a == 1 && curve.0.first().is_some_and(|degree| *degree < 0) { *a = 2 } }),
    ("a fourth measured number that is not read", |ask, a, _| if let Ask::Enclose { ohms } = ask { if ohms.0.len() > 3 && *a == 13 | 2 << 32 { *a = 0 } }),
    ("a place in the panel's answer", |ask, a, _| if ask.row() == 10 && number(a) == 10 { *a |= 1 << 32 }),
];

/// After how many questions, the calls in turn, a fault is found; none where it is not.
fn found_after(fault: Fault, most: usize) -> Option<usize> {
    let library = |ask: &mut Ask, lent: &mut Lent| {
        let mut answer = ask.by_library(lent);
        fault(ask, &mut answer, lent);
        answer
    };
    let mut trial = Trial {
        library: &library,
        rng: Rng::new(1),
        coverage: Coverage::default(),
    };
    let draws = CALLS.iter().cycle().take(most);
    let mut found = draws.map(|call| {
        let ask = (call.draw)(&mut trial.rng);
        trial.ask(&ask).is_err()
    });
    found.position(|found| found)
}

#[test]
fn finds_every_fault() {
    for (name, fault) in FAULTS {
        assert!(found_after(fault, 100_000).is_some(), "{name}");
    }
}

#[test]
fn finds_nothing_where_there_is_no_fault() {
    assert_eq!(found_after(|_, _, _| {}, 20_000), None);
}

/// A row that did not come up is missing, and so is one that came up and is not listed.
#[test]
fn finds_what_did_not_come_up() {
    let mut coverage = Coverage::default();
    let none = coverage.missing();
    assert!(none.contains(&"evaluate, refusal 1: 0".to_string()));
    assert!(none.contains(&"search, Spent, degree 8".to_string()));
    assert!(none.contains(&"enclose, more than three".to_string()));
    for (row, call) in CALLS.iter().enumerate() {
        let ask = (call.draw)(&mut Rng::new(1));
        assert_eq!(ask.row(), row, "{}", call.name);
        let (number, place) = (9, 0);
        coverage.count(&ask, &Err(Refusal { number, place }));
    }
    let nines = coverage.missing();
    assert!(nines.contains(&"bounds, refusal 9: 1".to_string()));
}
