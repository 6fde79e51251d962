//! The program as a whole: what it refuses, what it cannot read, and how it is used.

mod common;

use std::fs;
use std::path::{Path, PathBuf};

use common::{example, examples, expect_failure, run, run_on, written};
use jusqani::Curve;

#[test]
fn refuses_each_damaged_card_in_words() {
    for card in examples("damaged", "card") {
        let refusal = Curve::read_card(&fs::read(&card).unwrap()).unwrap_err();
        let output = run(&[&card]);
        let said = String::from_utf8_lossy(&output.stderr);
        assert_eq!(output.status.code(), Some(1));
        assert!(output.stdout.is_empty());
        assert!(
            said.starts_with(&format!("plot: {}: {refusal}", card.display())),
            "{said}"
        );
        assert_eq!(said.lines().count(), 1);
    }
}

#[test]
fn says_where_a_card_is_refused() {
    let card = example("damaged/wrong_line_end.card");
    let words =
        "refused 11: a column is malformed, or a line does not end with byte 10, at offset 51 \
                 (counted from 0), line 2, byte 41 (counted from 1)";
    let message = format!("plot: {}: {words}\n", card.display());
    expect_failure(&run(&[&card]), 1, &message);
    let message = "plot: standard input: refused 10: the card has fewer than 11 bytes, or not the length for its \
                   degree, it has 4096 bytes or more\n";
    let card = fs::read(example("dipole.card")).unwrap().repeat(99);
    expect_failure(&run_on(&[Path::new("-")], &card), 1, message);
}

#[test]
fn reads_a_card_from_standard_input() {
    let card = fs::read(example("dipole.card")).unwrap();
    let data = Path::new("--data");
    let output = run_on(&[data, Path::new("-")], &card);
    assert_eq!(output.status.code(), Some(0));
    let from_file = run(&[data, &example("dipole.card")]).stdout;
    let from_file = String::from_utf8(from_file).unwrap();
    let expected = from_file.replace("\n|dipole, degree", "\n|standard input, degree");
    assert_eq!(String::from_utf8(output.stdout).unwrap(), expected);
}

/// Lists that are refused or malformed, and what is said of them.
const LISTS: [(&str, &str, &str); 7] = [
    (
        "empty_box",
        "         8         6       500         1\n         5         5         0         1         7\n",
        ": refused 7: a box side is out of range, or a low side is not below its high side, in box 0 (counted from 0), line 2 of the list (counted from 1)",
    ),
    (
        "too_deep",
        "         8        13       500         1\n         0         5         0         1         7\n",
        ": refused 8: depth is above 12",
    ),
    (
        "no_budget",
        "         8         6         0         1\n         0         5         0         1         7\n",
        ": refused 9: budget is not 1 to 8,191",
    ),
    (
        "no_record",
        "         8         6       500         0\n",
        ": refused 16: the list of settings is empty or longer than 64, it has 0 records",
    ),
    (
        "another_call",
        "         5\n",
        ", line 1, column 1: a list of settings begins with the columns 8, depth, budget and count",
    ),
    (
        "record_missing",
        "         8         6       500         1\n",
        ", line 2, column 1: the input ends, and ten bytes of a number are due here, in record 0 (counted from 0) of 1",
    ),
    (
        "more_behind",
        "         8         6       500         1\n         0         5         0         1         7\n\n",
        ", line 3, column 1: the list's last record is before this line, and more stands here",
    ),
];

#[test]
fn says_what_is_wrong_with_a_list() {
    for (name, text, words) in LISTS {
        let file = written(name, text);
        let message = format!("plot: {}{words}\n", file.display());
        expect_failure(&run(&[&example("dipole.card"), &file]), 1, &message);
    }
}

#[test]
fn says_what_cannot_be_read() {
    let card = example("dipole.card");
    let missing = Path::new("no such file");
    let message = "plot: no such file cannot be read: No such file or directory (os error 2)\n";
    expect_failure(&run(&[missing]), 2, message);
    expect_failure(&run(&[&card, missing]), 2, message);
    let message = "plot: . cannot be read: Is a directory (os error 21)\n";
    expect_failure(&run(&[Path::new(".")]), 2, message);
    expect_failure(&run(&[&card, Path::new(".")]), 2, message);
}

/// A folder of its own for one test.
fn folder(name: &str) -> PathBuf {
    let folder = Path::new(env!("CARGO_TARGET_TMPDIR")).join(name);
    let _ = fs::remove_dir_all(&folder);
    fs::create_dir(&folder).unwrap();
    folder
}

#[test]
fn writes_a_file_when_it_is_whole() {
    let (folder, card) = (folder("whole"), example("dipole.card"));
    let (data, output) = (Path::new("--data"), Path::new("--output"));
    let (file, link) = (folder.join("data"), folder.join("link"));
    let shown = run(&[data, &card]).stdout;
    for written in [&file, &link] {
        let ended = run(&[data, output, written, &card]);
        assert_eq!((ended.status.code(), ended.stdout.len()), (Some(0), 0));
        assert!(fs::read(&file).unwrap() == shown);
        // What is there is replaced, and a link leads to it still.
        fs::write(&file, "before").unwrap();
        let _ = std::os::unix::fs::symlink("data", &link);
    }
    assert!(fs::symlink_metadata(&link).unwrap().is_symlink());
    let refused = run(&[data, output, &file, &example("damaged/degree_nine.card")]);
    assert_eq!(refused.status.code(), Some(1));
    assert_eq!(fs::read(&file).unwrap(), b"before");
    assert_eq!(fs::read_dir(&folder).unwrap().count(), 2);
}

#[test]
fn says_what_cannot_be_written() {
    let (folder, card) = (folder("unwritten"), example("dipole.card"));
    let cannot = |file: &Path, why: &str| {
        let output = run(&[Path::new("--data"), Path::new("--output"), file, &card]);
        let message = format!("plot: {} cannot be written: {why}\n", file.display());
        expect_failure(&output, 2, &message);
    };
    cannot(Path::new("/dev/null"), "it is no regular file");
    cannot(&folder, "it is no regular file");
    let missing = "No such file or directory (os error 2)";
    cannot(&folder.join("none/data"), missing);
    assert_eq!(fs::read_dir(&folder).unwrap().count(), 0);
}

#[test]
fn says_how_it_is_used() {
    let help = run(&[Path::new("--help")]);
    assert_eq!(help.status.code(), Some(0));
    assert!(help
        .stdout
        .starts_with(b"usage: plot [--data] [--output FILE] CARD [SETTINGS]\n"));
    let usage = String::from_utf8(help.stdout).unwrap();
    expect_failure(&run(&[]), 2, &format!("plot: no card is given\n{usage}"));
}
