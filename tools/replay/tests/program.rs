//! Runs the program: its answers, its messages and its exit statuses.
#![forbid(unsafe_code)]

use std::io::{self, BufRead, BufReader, Read, Write};
use std::process::{Child, ChildStdin, ChildStdout, Command, Output, Stdio};
use std::sync::Mutex;
use std::thread;
use std::time::Duration;

const CALLS: &[u8] = include_bytes!("calls");
const ANSWERS: &[u8] = include_bytes!("answers");

/// The list of calls that README shows, and its answers.
const DIPOLE: &str = include_str!("../../../examples/dipole.calls");
const DIPOLE_ANSWERS: &str = include_str!("dipole_answers");

/// Two lists of relay settings for the same card, and which is chosen.
const DIPOLE_SETTINGS: &str = include_str!("../../../examples/dipole_settings.calls");
const DIPOLE_SETTINGS_ANSWERS: &str = include_str!("dipole_settings_answers");

/// The sum of steps over a cut, a raising and readings, and up to where it is refused.
const SUM_OF_STEPS: &str = include_str!("../../../examples/sum_of_steps.calls");
const SUM_OF_STEPS_ANSWERS: &str = include_str!("sum_of_steps_answers");

const CARD: &str = "         1
         0         1        -3        -3
         1         3         0         2
";

/// Held while a program starts: until then it has a copy of every open pipe of this process, of other tests too.
static STARTING: Mutex<()> = Mutex::new(());

fn start(arguments: &[&str]) -> Child {
    let _alone = STARTING.lock().unwrap();
    Command::new(env!("CARGO_BIN_EXE_replay"))
        .args(arguments)
        .stdin(Stdio::piped())
        .stdout(Stdio::piped())
        .stderr(Stdio::piped())
        .spawn()
        .expect("the program starts")
}

/// Runs the program on a text, given in pieces of so many bytes.
fn run_in_pieces(arguments: &[&str], text: &[u8], size: usize) -> Output {
    let mut child = start(arguments);
    let mut stdin = child.stdin.take().unwrap();
    let pieces: Vec<Vec<u8>> = text.chunks(size).map(<[u8]>::to_vec).collect();
    let slow = pieces.len() > 1;
    let writer = thread::spawn(move || {
        for piece in pieces {
            // The program may have stopped at a fault and closed its end.
            if stdin.write_all(&piece).is_err() {
                return;
            }
            thread::sleep(Duration::from_millis(slow.into()));
        }
    });
    let output = child.wait_with_output().unwrap();
    writer.join().unwrap();
    output
}

fn run(arguments: &[&str], text: &str) -> Output {
    run_in_pieces(arguments, text.as_bytes(), text.len().max(1))
}

/// Checks the exit status and both texts of a run.
fn expect(output: &Output, status: i32, stdout: &str, stderr: &str) {
    assert_eq!(String::from_utf8_lossy(&output.stdout), stdout);
    assert_eq!(String::from_utf8_lossy(&output.stderr), stderr);
    assert_eq!(output.status.code(), Some(status));
}

const AT_THE_LAST_CARD: &str =
    "replay: standard input, line 49, column 1: the input ends, and ten bytes of a number are due here\n";

#[test]
fn answers_the_sample_in_pieces_of_any_size() {
    let answers = String::from_utf8_lossy(ANSWERS);
    for size in [1, 7, 64, CALLS.len()] {
        let output = run_in_pieces(&[], CALLS, size);
        expect(&output, 1, &answers, AT_THE_LAST_CARD);
    }
}

#[test]
fn runs_to_the_end() {
    expect(&run(&[], ""), 0, "", "");
    let closed = format!("{CARD}         0\n");
    expect(&run(&[], &closed), 0, "         0         1\n", "");
    expect(&run(&[], DIPOLE), 0, DIPOLE_ANSWERS, "");
    let chosen = run(&[], DIPOLE_SETTINGS);
    expect(&chosen, 0, DIPOLE_SETTINGS_ANSWERS, "");
    let summed = run(&[], SUM_OF_STEPS);
    expect(&summed, 0, SUM_OF_STEPS_ANSWERS, "");
}

/// A fourth line behind the card, the column where it is wrong, and the words for it.
const FAULTS: [(&str, usize, &str); 7] = [
    (
        "         4\r\n",
        11,
        "the line has to end here, with byte 10, and \"\\r\" stands here",
    ),
    (
        "        04\n",
        1,
        "\"        04\" is not a number set to the right in ten bytes",
    ),
    (
        "         1         1\n",
        21,
        "the line ends, and ten bytes of a number are due here",
    ),
    (
        "         1         1        -2\n",
        21,
        "den is -2, which is not 0 to 4294967295",
    ),
    (
        "        12\n",
        1,
        "12 is no call: 1 to 9 are the calls, and 0 ends a case",
    ),
    (
        "         9     65536\n",
        11,
        "the sum of steps is 65536, which is not 0 to 65535",
    ),
    (
        "         5",
        11,
        "the input ends, and the line has to end first, with byte 10",
    ),
];

#[test]
fn says_where_a_text_is_malformed() {
    for (line, column, what) in FAULTS {
        let output = run(&[], &format!("{CARD}{line}"));
        let answers = "         0         1\n        99        93\n";
        let message = format!("replay: standard input, line 4, column {column}: {what}\n");
        expect(&output, 1, answers, &message);
    }
    let output = run(&[], "         9\n");
    let message = "the degree is 9, which is not 1 to 8\n";
    let message = format!("replay: standard input, line 1, column 1: {message}");
    expect(&output, 1, "        99         0\n", &message);
}

/// A case may end at no line end but that of its last line.
#[test]
fn says_where_a_case_is_cut_short() {
    let answer = "         0         1\n";
    let bounds = "         0         0         3        -3         2\n";
    let what = "column 1: the input ends, and a call is due here, or the line with the column 0 that ends the case";
    let output = run(&[], CARD);
    let message = format!("replay: standard input, line 4, {what}\n");
    let stopped = format!("{answer}        99        93\n");
    expect(&output, 1, &stopped, &message);
    let output = run(&[], &format!("{CARD}         0\n{CARD}         5\n"));
    let message = format!("replay: standard input, line 9, {what}\n");
    let stopped = format!("{answer}{answer}{bounds}        99       208\n");
    expect(&output, 1, &stopped, &message);
}

const LIST: &str = "         8         6       500         2\n";
const RECORD: &str = "         0         4        -3         3     65535\n";

/// The lines behind a list's first, the record that is wrong, its column, and the words for it.
const LIST_FAULTS: [(&[&str], usize, usize, &str); 4] = [
    (
        &[RECORD],
        1,
        1,
        "the input ends, and ten bytes of a number are due here",
    ),
    (
        &[RECORD, "         0\n"],
        1,
        11,
        "the line ends, and ten bytes of a number are due here",
    ),
    (
        &["         0         4        -3         3     65536\n"],
        0,
        41,
        "the setting number is 65536, which is not 0 to 65535",
    ),
    (
        &["         02147483648        -3         3         7\n"],
        0,
        11,
        "the box's high resistance is 2147483648, which is not -2147483648 to 2147483647",
    ),
];

/// A list is one call: whichever of its lines is wrong, the run ends at the call's first byte.
#[test]
fn says_where_a_list_is_malformed() {
    for (lines, index, column, what) in LIST_FAULTS {
        let output = run(&[], &format!("{CARD}{LIST}{}", lines.concat()));
        let answers = "         0         1\n        99        93\n";
        let line = 5 + index;
        let message = format!(
            "replay: standard input, line {line}, column {column}: {what}, in record {index} \
             (counted from 0) of 2\n"
        );
        expect(&output, 1, answers, &message);
    }
}

#[test]
fn reads_a_file() {
    let calls = concat!(env!("CARGO_MANIFEST_DIR"), "/tests/calls");
    let message = AT_THE_LAST_CARD.replace("standard input", calls);
    expect(
        &run(&[calls], ""),
        1,
        &String::from_utf8_lossy(ANSWERS),
        &message,
    );
    let missing = run(&["no such file"], "");
    let message = "replay: no such file cannot be read: No such file or directory (os error 2)\n";
    expect(&missing, 2, "", message);
    let folder = run(&["."], "");
    let message = "replay: . cannot be read: Is a directory (os error 21)\n";
    expect(&folder, 2, "", message);
}

#[test]
fn shows_places_where_it_is_asked_to() {
    // From 1/3 on, two thirds wide; a quarter of that is the place 1/2.
    let calls = "         3         1         3\n         1         1         4\n         1         5         4\n";
    let sixteenths = "         7         4\n         7        17\n";
    let text = format!("{CARD}{calls}{sixteenths}         0\n");
    let shown = |arguments: &[&str]| {
        let output = run(arguments, &text);
        assert_eq!(output.status.code(), Some(0));
        let answers = String::from_utf8(output.stdout).unwrap();
        answers.lines().map(str::to_string).collect::<Vec<_>>()
    };
    let mut answers = shown(&[]);
    let read = "         0         0         3        -2         0         2         0";
    let refused = ["         5         0", "        15         0"];
    assert_eq!(answers[2..], [read, refused[0], read, refused[1]]);
    for reading in [2, 4] {
        answers[reading].push_str("  1/2");
    }
    assert_eq!(shown(&["--places"]), answers);
}

#[test]
fn says_how_it_is_used() {
    let help = run(&["--help"], "");
    assert_eq!(help.status.code(), Some(0));
    assert!(help
        .stdout
        .starts_with(b"usage: replay [--places] [FILE]\n"));
    let usage = String::from_utf8_lossy(&help.stdout);
    let message = format!("replay: there is no option --all\n{usage}");
    expect(&run(&["--all"], ""), 2, "", &message);
}

/// Sends a text and reads one line of answer, while the pipe stays open.
fn ask(stdin: &mut ChildStdin, stdout: &mut BufReader<ChildStdout>, text: &str) -> String {
    stdin.write_all(text.as_bytes()).unwrap();
    let mut answer = String::new();
    stdout.read_line(&mut answer).unwrap();
    answer
}

#[test]
fn answers_each_line_before_the_next_one_comes() {
    let mut child = start(&[]);
    let mut stdin = child.stdin.take().unwrap();
    let mut stdout = BufReader::new(child.stdout.take().unwrap());
    assert_eq!(ask(&mut stdin, &mut stdout, CARD), "         0         1\n");
    let bounds = "         0         0         3        -3         2\n";
    assert_eq!(ask(&mut stdin, &mut stdout, "         5\n"), bounds);
    let list = format!("{LIST}{}", RECORD.repeat(2));
    let chosen = "         0         1         0     65535\n";
    assert_eq!(ask(&mut stdin, &mut stdout, &list), chosen);
    assert_eq!(
        ask(&mut stdin, &mut stdout, "         4         \n"),
        "        99       247\n"
    );
    assert_eq!(child.wait().unwrap().code(), Some(1));
}

#[test]
fn ends_quietly_when_nobody_reads() {
    let mut child = start(&[]);
    let mut stdin = child.stdin.take().unwrap();
    let alone = STARTING.lock().unwrap();
    drop(child.stdout.take());
    drop(alone);
    let sent = (0..100_000).try_for_each(|_| stdin.write_all(CARD.as_bytes()));
    assert_eq!(sent.unwrap_err().kind(), io::ErrorKind::BrokenPipe);
    let mut message = String::new();
    child
        .stderr
        .take()
        .unwrap()
        .read_to_string(&mut message)
        .unwrap();
    assert_eq!(message, "");
    assert_eq!(child.wait().unwrap().code(), Some(0));
}
