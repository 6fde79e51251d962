//! Runs lists of calls from cards on the proved library, and prints the answer to each card and call.
//! The text's form is in README.md, "Replaying lists of calls".
#![forbid(unsafe_code)]

mod options;

use std::env;
use std::ffi::OsString;
use std::fs::File;
use std::io::{self, BufReader, ErrorKind, Write};
use std::process::ExitCode;

use options::{Options, USAGE};
use replay::run::{run, Failure};

/// The exit statuses besides 0.
const MALFORMED: u8 = 1;
const FAILED: u8 = 2;

fn main() -> ExitCode {
    match Options::of(env::args_os().skip(1)) {
        Ok(Options::Help) => status_of(help(), ""),
        Ok(Options::Run { file: None, places }) => {
            let ended = run(io::stdin().lock(), io::stdout().lock(), places);
            status_of(ended, "standard input")
        }
        Ok(Options::Run {
            file: Some(file),
            places,
        }) => {
            let name = file.to_string_lossy();
            status_of(run_file(&file, places), &name)
        }
        Err(wrong) => fail(FAILED, &format!("{wrong}\n{USAGE}")),
    }
}

fn help() -> Result<(), Failure> {
    let written = io::stdout().write_all(USAGE.as_bytes());
    written.map_err(Failure::Unwritable)
}

fn run_file(name: &OsString, places: bool) -> Result<(), Failure> {
    let file = File::open(name).map_err(Failure::Unreadable)?;
    run(BufReader::new(file), io::stdout().lock(), places)
}

/// Says why a run did not go to the end. Who closed the pipe that it wrote to wants no more, and no message.
fn status_of(ended: Result<(), Failure>, input: &str) -> ExitCode {
    match ended {
        Ok(()) => ExitCode::SUCCESS,
        Err(Failure::Malformed(found)) => fail(MALFORMED, &format!("{input}, {found}\n")),
        Err(Failure::Unreadable(error)) => {
            fail(FAILED, &format!("{input} cannot be read: {error}\n"))
        }
        Err(Failure::Unwritable(error)) if error.kind() == ErrorKind::BrokenPipe => {
            ExitCode::SUCCESS
        }
        Err(Failure::Unwritable(error)) => {
            fail(FAILED, &format!("the output cannot be written: {error}\n"))
        }
    }
}

/// Writes a message to standard error, as far as that can be written, and gives the exit status.
fn fail(status: u8, message: &str) -> ExitCode {
    let _ = write!(io::stderr(), "replay: {message}");
    ExitCode::from(status)
}
