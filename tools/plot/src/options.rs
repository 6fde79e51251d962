//! What the program is asked to do on its command line.

use std::ffi::OsString;

pub const USAGE: &str = "usage: plot [--data] [--output FILE] CARD [SETTINGS]

Draws what the proved calls answer for a card, with gnuplot, as an SVG picture in FILE, or on standard
output where none is given: resistance and reactance across the band, the same on a Smith chart at 50
ohms and, with a list of settings, its boxes and which setting is chosen.

CARD is a file, or - for standard input. SETTINGS is a file with one call 8 as replay reads it: a line
with the columns 8, depth, budget and count, then a line for each record with four box sides and a
setting number. Files whose names begin with - are given behind --.

  --data         write what gnuplot is given, its data and its script, and draw nothing
  --output FILE  write FILE, and only once all of it is there: what stood in it before stays until then
  --help         print this

Exit status: 0 the picture is drawn, or nobody reads the output any more; 1 the card or the list is
refused or malformed, and nothing is drawn; 2 bad usage, gnuplot is missing or did not draw, or a file
cannot be read, the output not be written, or the program not be built.
";

#[derive(PartialEq, Debug)]
pub enum Options {
    Help,
    Draw(Drawing),
}

/// What is drawn, whether only its data are wanted, and the file that it goes to.
#[derive(PartialEq, Debug)]
pub struct Drawing {
    pub card: OsString,
    pub settings: Option<OsString>,
    pub data: bool,
    pub output: Option<OsString>,
}

impl Options {
    /// The options in the program's arguments, or what is wrong with them.
    pub fn of(mut arguments: impl Iterator<Item = OsString>) -> Result<Options, String> {
        let (mut files, mut data, mut output, mut only_files) = (Vec::new(), false, None, false);
        while let Some(argument) = arguments.next() {
            match argument.to_str() {
                _ if only_files => files.push(argument),
                Some("--") => only_files = true,
                Some("--help" | "-h") => return Ok(Options::Help),
                Some("--data") => data = true,
                Some("--output") => output = Some(file_in(arguments.next())?),
                Some(option) if option.starts_with('-') && option != "-" => {
                    return Err(format!("there is no option {option}"));
                }
                _ => files.push(argument),
            }
        }
        let mut files = files.into_iter();
        let card = files.next().ok_or("no card is given")?;
        let settings = files.next();
        match files.next() {
            Some(_) => Err("more than a card and a list of settings is given".to_string()),
            None => Ok(Options::Draw(Drawing {
                card,
                settings,
                data,
                output,
            })),
        }
    }
}

/// The file behind --output. What begins with - is more likely an option.
fn file_in(argument: Option<OsString>) -> Result<OsString, String> {
    let file = argument.filter(|file| !file.is_empty() && !file.to_string_lossy().starts_with('-'));
    file.ok_or_else(|| "no file is given behind --output".to_string())
}

#[cfg(test)]
mod tests {
    use super::*;

    fn options(arguments: &[&str]) -> Result<Options, String> {
        Options::of(arguments.iter().map(OsString::from))
    }

    fn draw(card: &str, settings: Option<&str>, data: bool) -> Result<Options, String> {
        Ok(Options::Draw(drawing(card, settings, data)))
    }

    fn drawing(card: &str, settings: Option<&str>, data: bool) -> Drawing {
        Drawing {
            card: card.into(),
            settings: settings.map(OsString::from),
            data,
            output: None,
        }
    }

    #[test]
    fn reads_the_arguments() {
        assert_eq!(options(&["a"]), draw("a", None, false));
        assert_eq!(options(&["-", "b"]), draw("-", Some("b"), false));
        assert_eq!(options(&["a", "--data"]), draw("a", None, true));
        assert_eq!(options(&["--", "--x", "-"]), draw("--x", Some("-"), false));
        assert_eq!(options(&["a", "--help"]), Ok(Options::Help));
        let output = Some(OsString::from("c"));
        let drawing = Drawing {
            output,
            ..drawing("a", Some("b"), true)
        };
        let given = options(&["a", "--output", "c", "b", "--data"]);
        assert_eq!(given, Ok(Options::Draw(drawing)));
    }

    #[test]
    fn says_what_is_wrong() {
        assert_eq!(options(&[]).unwrap_err(), "no card is given");
        assert_eq!(
            options(&["--png", "a"]).unwrap_err(),
            "there is no option --png"
        );
        for wrong in [&["a", "--output"][..], &["--output", "--data", "a"]] {
            let no_file = options(wrong).unwrap_err();
            assert_eq!(no_file, "no file is given behind --output");
        }
        let more = options(&["a", "b", "c"]).unwrap_err();
        assert_eq!(more, "more than a card and a list of settings is given");
    }
}
