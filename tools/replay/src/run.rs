//! A run: the answers to all cards and calls of a text, one line at a time.

use std::io::{self, BufRead, Write};

use crate::call::Request;
use crate::columns::{capped, columns_of};
use crate::input::{Input, Malformed, Stop};
use crate::session::Session;

/// The first column of the line that ends a run at a malformed card or call.
const STOPPED: i64 = 99;

/// Why a run ended before the text did.
#[derive(Debug)]
pub enum Failure {
    Malformed(Malformed),
    Unreadable(io::Error),
    Unwritable(io::Error),
}

impl From<Stop> for Failure {
    fn from(stop: Stop) -> Failure {
        match stop {
            Stop::Malformed(malformed) => Failure::Malformed(malformed),
            Stop::Unreadable(error) => Failure::Unreadable(error),
        }
    }
}

/// Answers a text. A malformed card or call has an answer too, the last.
pub fn run(source: impl BufRead, mut output: impl Write, places: bool) -> Result<(), Failure> {
    let ended = answer_cases(&mut Input::new(source), &mut output, places);
    if let Err(Failure::Malformed(malformed)) = &ended {
        let line = columns_of(&[STOPPED, capped(malformed.offset)]) + "\n";
        show(&mut output, &line)?;
    }
    ended
}

fn answer_cases<R: BufRead>(
    input: &mut Input<R>,
    output: &mut impl Write,
    places: bool,
) -> Result<(), Failure> {
    while let Some(card) = input.card()? {
        let (mut session, answer) = Session::open(&card, places);
        show(output, &answer.line())?;
        while let Request::Call(call) = input.request()?.ok_or_else(|| input.cut_short())? {
            show(output, &session.answer(call).line())?;
        }
    }
    Ok(())
}

/// Writes a line at once, so that who waits for it need not send more first.
fn show(output: &mut impl Write, line: &str) -> Result<(), Failure> {
    let written = output.write_all(line.as_bytes());
    written
        .and_then(|()| output.flush())
        .map_err(Failure::Unwritable)
}
