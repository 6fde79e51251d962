//! Runs the second program beside the proved library. It prints what it compared and ends with status 1 at the
//! first disagreement, or where a row of its table did not come up.
#![forbid(unsafe_code)]

use jusqani::raw;
use second::ask::Ask;
use second::card::card_of;
use second::compare::{Lent, Trial};
use second::coverage::{Call, Coverage, CALLS};
use second::model::Curve;
use second::rng::{in_parts, Rng, SEED};
use second::{demand3, readings, record_sum, verdicts};
use std::process::ExitCode;
use std::time::Instant;

type Check = fn(&mut Trial) -> Result<(), String>;

/// What is tried with exact fractions, and how often.
const FACTS: [(Check, usize); 4] = [
    (demand3::check, 120_000),
    (record_sum::check, 20_000),
    (verdicts::check, 60_000),
    (readings::check, 120_000),
];
const PARTS: usize = 1_000;

fn main() -> ExitCode {
    let begun = Instant::now();
    let ended = beyond_words().and_then(|()| run());
    let message = match ended {
        Ok(coverage) => {
            print!("{}", coverage.table());
            println!("{} curves drawn and lent", curves());
            println!("seed {SEED}, {:.0} seconds", begun.elapsed().as_secs_f64());
            let (calls, facts) = (coverage.calls(), coverage.facts());
            println!("{calls} calls answered alike, {facts} facts hold");
            coverage.missing().join("\n")
        }
        Err(message) => message,
    };
    if message.is_empty() {
        return ExitCode::SUCCESS;
    }
    println!("FAILED\n{message}");
    ExitCode::FAILURE
}

/// How many curves are drawn and lent, those in cards, lists and facts aside.
fn curves() -> usize {
    let lends = |call: &&Call| (call.draw)(&mut Rng::new(SEED)).curve().is_some();
    CALLS.iter().filter(lends).map(|call| call.drawn).sum()
}

/// The parts in turn, each with its share of every call and every fact, so that what is wrong comes up soon.
fn run() -> Result<Coverage, String> {
    let mut all = Coverage::default();
    for coverage in in_parts(PARTS, part)? {
        all.add(&coverage);
    }
    Ok(all)
}

fn part(part: usize) -> Result<Coverage, String> {
    let mut trial = Trial {
        library: &|ask: &mut Ask, lent: &mut Lent| ask.by_library(lent),
        rng: Rng::of_part(part),
        coverage: Coverage::default(),
    };
    let compared = compare(&mut trial);
    let calls = trial.coverage.calls();
    compared.map_err(|message| format!("part {part}, after {calls} calls\n{message}"))?;
    Ok(trial.coverage)
}

fn compare(trial: &mut Trial) -> Result<(), String> {
    for call in &CALLS {
        for _ in 0..call.drawn / PARTS {
            let ask = (call.draw)(&mut trial.rng);
            trial.ask(&ask)?;
        }
    }
    let mut facts = FACTS.iter();
    facts.try_for_each(|(check, times)| (0..times / PARTS).try_for_each(|_| check(trial)))
}

/// A card longer than 32 bits can say: its place is the largest that there is, and the panel's number the same.
fn beyond_words() -> Result<(), String> {
    let card = card_of(&Curve::new(&[[0; 4]; 2]));
    let length = (1 << 32) + card.len();
    let mut long = vec![0; length];
    long[..card.len()].copy_from_slice(&card);
    let mut curve = [7; 60];
    let answers = (
        raw::read_card(&long, &mut curve),
        raw::panel(&long, 1, 2, &mut [0; 16]),
    );
    if answers == ((u64::from(u32::MAX) << 32) | 10, 10) && curve == [7; 60] {
        return Ok(());
    }
    Err(format!("a card of {length} bytes: {answers:?}, {curve:?}"))
}
