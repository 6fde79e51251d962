//! Texts that are cut short, damaged at any byte, or long: the answers before the fault are those of the whole text,
//! and the last line names the first byte of the card or call that is malformed.
#![forbid(unsafe_code)]

use replay::run::{run, Failure};

const TEXTS: [&str; 3] = [
    include_str!("../../../examples/dipole.calls"),
    include_str!("../../../examples/dipole_settings.calls"),
    include_str!("../../../examples/sum_of_steps.calls"),
];

/// The lines of the answers, and whether the text was read to its end.
fn answers(text: &str) -> (Vec<String>, bool) {
    let mut written = Vec::new();
    let ended = run(text.as_bytes(), &mut written, true);
    assert!(matches!(ended, Ok(()) | Err(Failure::Malformed(_))));
    let lines = String::from_utf8(written).unwrap();
    (lines.lines().map(str::to_string).collect(), ended.is_ok())
}

/// The offsets at which the card, the calls, each with the records of its list, and the last line of a case begin.
fn beginnings(text: &str) -> Vec<usize> {
    let mut offsets = vec![];
    let (mut offset, mut within) = (0, 0);
    for line in text.split_inclusive('\n') {
        let numbers: Vec<usize> = line.split_whitespace().flat_map(str::parse).collect();
        if within > 0 {
            within -= 1;
        } else {
            offsets.push(offset);
            within = match (offset, &numbers[..]) {
                (0, [degree]) => degree + 1,
                (_, [8, _, _, records]) => *records,
                _ => 0,
            };
        }
        offset += line.len();
    }
    offsets
}

/// Checks a text that is the whole one up to some byte of its request k and malformed there.
fn stops(text: &str, whole: &[String], beginnings: &[usize], k: usize) {
    let (lines, ended) = answers(text);
    let stopped = format!("{:10}{:10}", 99, beginnings[k]);
    assert!(!ended && lines[..k] == whole[..k], "{text}");
    assert_eq!(lines[k..], [stopped], "{text}");
}

#[test]
fn stops_at_any_byte_that_is_missing_or_wrong() {
    for text in TEXTS {
        let (whole, ended) = answers(text);
        let beginnings = beginnings(text);
        // The last line has no answer.
        assert!(ended && whole.len() + 1 == beginnings.len());
        for place in 0..text.len() {
            let k = beginnings.partition_point(|first| *first <= place) - 1;
            stops(&damaged(text, place), &whole, &beginnings, k);
            if place > 0 {
                stops(&text[..place], &whole, &beginnings, k);
            }
        }
    }
}

/// The text with an x at a place, which no card and no call has.
fn damaged(text: &str, place: usize) -> String {
    format!("{}x{}", &text[..place], &text[place + 1..])
}

#[test]
fn answers_a_long_text() {
    let (case, times) = (TEXTS[0], 2_000);
    let (once, _) = answers(case);
    let (often, ended) = answers(&case.repeat(times));
    assert!(ended && often == vec![once; times].concat());
}
