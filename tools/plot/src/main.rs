//! Asks the proved calls about a card, and has gnuplot draw their answers.
#![forbid(unsafe_code)]

mod answers;
mod boxes;
mod data;
mod frame;
mod gnuplot;
mod list;
mod options;
mod output;
mod regions;
mod smith;
mod text;
mod words;

use std::env;
use std::ffi::OsStr;
use std::fs::File;
use std::io::{self, BufReader, ErrorKind, Read, Write};
use std::path::Path;
use std::process::ExitCode;

use jusqani::Curve;

use answers::{Answers, Chosen, List};
use options::{Drawing, Options, USAGE};

/// The steps of an ohm.
const OHM: f64 = 1024.0;

/// The most bytes that are read of a card. The longest has 380.
const MAX_READ: u64 = 4096;

/// Why there is nothing to draw: its exit status, and what is said.
struct Failure {
    status: u8,
    message: String,
}

/// The card or the list is refused or malformed.
fn refused(message: String) -> Failure {
    Failure { status: 1, message }
}

/// The program could not do its work.
fn failed(message: String) -> Failure {
    Failure { status: 2, message }
}

fn main() -> ExitCode {
    let ended = match Options::of(env::args_os().skip(1)) {
        Ok(Options::Help) => show(USAGE),
        Ok(Options::Draw(drawing)) => draw(&drawing),
        Err(wrong) => Err(failed(format!("{wrong}\n{}", USAGE.trim_end()))),
    };
    match ended {
        Ok(()) => ExitCode::SUCCESS,
        Err(Failure { status, message }) => {
            let _ = writeln!(io::stderr(), "plot: {message}");
            ExitCode::from(status)
        }
    }
}

/// Who closed the pipe that is written to wants no more, and no message.
fn show(text: &str) -> Result<(), Failure> {
    match io::stdout().write_all(text.as_bytes()) {
        Err(error) if error.kind() != ErrorKind::BrokenPipe => {
            Err(failed(format!("the output cannot be written: {error}")))
        }
        _ => Ok(()),
    }
}

/// Writes a text to a file, or shows it where none is given.
fn deliver(text: &str, output: Option<&OsStr>) -> Result<(), Failure> {
    let Some(file) = output else {
        return show(text);
    };
    output::write_whole(Path::new(file), text).map_err(|error| {
        let name = file.to_string_lossy();
        failed(format!("{name} cannot be written: {error}"))
    })
}

/// Delivers the picture of a card, or the data that it is drawn from, once all of it is there.
fn draw(asked: &Drawing) -> Result<(), Failure> {
    let (name, shown) = names(&asked.card);
    let curve = read_card(&asked.card, &shown)?;
    let list = asked.settings.as_deref().map(read_list).transpose()?;
    let in_card = |refusal| refused(format!("{shown}: {refusal}"));
    let answers = Answers::of(curve).map_err(in_card)?;
    let chosen = list.map(|(list, name)| {
        let in_list = |refusal| refused(format!("{name}: {}", words::refused_list(refusal)));
        Chosen::of(&curve, list).map_err(in_list)
    });
    let text = data::text(&name, &answers, chosen.transpose()?.as_ref());
    let output = asked.output.as_deref();
    if asked.data {
        return deliver(&text, output);
    }
    let picture = gnuplot::picture(&text).map_err(failed)?;
    let title = words::title(&name, curve.degree());
    deliver(&gnuplot::titled(&picture, &title), output)
}

/// A card's name in the title, and in a message.
fn names(card: &OsStr) -> (String, String) {
    if card == "-" {
        return ("standard input".to_string(), "standard input".to_string());
    }
    let stem = Path::new(card).file_stem().unwrap_or(card);
    (
        stem.to_string_lossy().into_owned(),
        card.to_string_lossy().into_owned(),
    )
}

fn read_card(card: &OsStr, shown: &str) -> Result<Curve, Failure> {
    let mut bytes = Vec::new();
    let read = if card == "-" {
        io::stdin().take(MAX_READ).read_to_end(&mut bytes)
    } else {
        File::open(card).and_then(|file| file.take(MAX_READ).read_to_end(&mut bytes))
    };
    let length = read.map_err(|error| failed(format!("{shown} cannot be read: {error}")))?;
    Curve::read_card(&bytes).map_err(|refusal| {
        let words = words::refused_card(refusal, length as u64 == MAX_READ);
        refused(format!("{shown}: {words}"))
    })
}

/// A list of settings, and its name in a message.
fn read_list(file: &OsStr) -> Result<(List, String), Failure> {
    let name = file.to_string_lossy().into_owned();
    let unreadable = |error| failed(format!("{name} cannot be read: {error}"));
    let source = File::open(file).map_err(unreadable)?;
    match list::read(BufReader::new(source)) {
        Ok(list) => Ok((list, name)),
        Err(list::Fault::Malformed(what)) => Err(refused(format!("{name}, {what}"))),
        Err(list::Fault::Unreadable(error)) => Err(unreadable(error)),
    }
}
