//! What the program is asked to do on its command line.

use std::ffi::OsString;

pub const USAGE: &str = "usage: replay [--places] [FILE]

Runs lists of calls from cards, read from FILE or from standard input, and prints a line for each
card and call. All numbers stand in columns of ten bytes. A case is a card, then call lines, then a
line with the column 0:

  columns of the line        call                   answer
  1, num, den                reading                0, the load's four sides, the sum of steps,
                                                    exact
  2, num, den                cut, left piece kept   0, the degree, the rectangles of the left piece,
                                                    then of the right, the sum of steps, exact
  3, num, den                cut, right piece kept  the same
  4                          raising                0, the new degree, its rectangles, the sum of
                                                    steps, exact
  5                          bounds                 0, four sides
  6, four box sides, depth,  walk over a box        0, verdict (1 Inside, 2 Outside, 3 Spent,
  budget                                            4 Undecided), depth, index, count
  7, j                       reading at j/16,       as for 1
                             summed
  8, depth, budget, count;   choice of a setting    0, 1 fits or 2 none fits, the record's index,
  then a line for each                              its setting number
  record: four box sides,
  setting number
  9, sum                     the curve's sum of     0, the sum
                             steps set, 0 to 65535

Reading 1 rounds every stage; reading 7, for j from 0 to 16, rounds the whole sum once. Exact is 1 where
the call rounded nothing, and 0 where it rounded some side. A box's low sides lie inside it and its high
sides outside: a high side is the first value not allowed. Call 8 makes the walk of call 6 over each
record's box in turn, each with the whole budget, and chooses the first that ends Inside; a setting
number is 0 to 65535. A card's curve has the sum of steps 0. A cut adds the degree to it, a raising 1, and
a reading shows it with the degree added. Where it would pass 65535, a cut, a raising, a walk or a choice
is refused with 17. A card answers 0 and its degree, and a refusal its number and place. A card or a call
that is malformed or cut short ends the run with 99 and the offset of its first byte; so does a case
without its line with 0, with the offset where the input ends.

  --places  put two spaces and the place on the starting curve behind each accepted reading, as
            upper/lower in lowest terms, where both have at most 20 digits
  --help    print this

Exit status: 0 the run went to the end, or nobody reads the output any more; 1 a card, a call or a
case is malformed or cut short; 2 bad usage, or the input cannot be read, the output not be written,
or the program not be built.
";

#[derive(PartialEq, Debug)]
pub enum Options {
    Help,
    Run {
        file: Option<OsString>,
        places: bool,
    },
}

impl Options {
    /// The options in the program's arguments, or what is wrong with them.
    pub fn of(arguments: impl Iterator<Item = OsString>) -> Result<Options, String> {
        let mut file = None;
        let mut places = false;
        for argument in arguments {
            match argument.to_str() {
                Some("--help") => return Ok(Options::Help),
                Some("--places") => places = true,
                Some(option) if option.starts_with('-') => {
                    return Err(format!("there is no option {option}"));
                }
                _ if file.is_some() => return Err("more than one file is given".to_string()),
                _ => file = Some(argument),
            }
        }
        Ok(Options::Run { file, places })
    }
}

#[cfg(test)]
mod tests {
    use super::*;

    fn options(arguments: &[&str]) -> Result<Options, String> {
        Options::of(arguments.iter().map(OsString::from))
    }

    fn run(file: Option<&str>, places: bool) -> Result<Options, String> {
        let file = file.map(OsString::from);
        Ok(Options::Run { file, places })
    }

    #[test]
    fn reads_the_arguments() {
        assert_eq!(options(&[]), run(None, false));
        assert_eq!(options(&["calls"]), run(Some("calls"), false));
        assert_eq!(options(&["calls", "--places"]), run(Some("calls"), true));
        assert_eq!(options(&["--places", "--help"]), Ok(Options::Help));
    }

    #[test]
    fn says_what_is_wrong() {
        let unknown = options(&["--place"]).unwrap_err();
        assert_eq!(unknown, "there is no option --place");
        let two = options(&["calls", "more"]).unwrap_err();
        assert_eq!(two, "more than one file is given");
    }
}
