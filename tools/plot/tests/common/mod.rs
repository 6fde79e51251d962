//! Runs the program, and takes its data apart.
#![allow(dead_code)] // Each test file uses a part.

use std::collections::HashMap;
use std::ffi::OsStr;
use std::io::Write;
use std::path::{Path, PathBuf};
use std::process::{Command, Output, Stdio};
use std::{env, fs};

/// A file of examples/.
pub fn example(name: &str) -> PathBuf {
    let examples = Path::new(env!("CARGO_MANIFEST_DIR")).join("../../examples");
    examples.join(name)
}

/// The files of a folder of examples/ whose names end so.
pub fn examples(folder: &str, ending: &str) -> Vec<PathBuf> {
    let files = fs::read_dir(example(folder)).unwrap();
    let files = files.map(|file| file.unwrap().path());
    let ends = |path: &PathBuf| path.extension() == Some(OsStr::new(ending));
    let found: Vec<PathBuf> = files.filter(ends).collect();
    assert!(!found.is_empty(), "no {ending} in {folder}");
    found
}

/// A file with a text, for one test.
pub fn written(name: &str, text: &str) -> PathBuf {
    let path = Path::new(env!("CARGO_TARGET_TMPDIR")).join(name);
    fs::write(&path, text).unwrap();
    path
}

pub fn run(arguments: &[&Path]) -> Output {
    run_on(arguments, b"")
}

/// Runs the program with a text on standard input, in the locale that knows the fewest characters.
pub fn run_on(arguments: &[&Path], input: &[u8]) -> Output {
    let mut command = Command::new(env!("CARGO_BIN_EXE_plot"));
    command.args(arguments).env("LC_ALL", "C");
    command.stdin(Stdio::piped());
    let piped = command.stdout(Stdio::piped()).stderr(Stdio::piped());
    let mut child = piped.spawn().unwrap();
    // A program that reads no input may have closed it.
    let _ = child.stdin.take().unwrap().write_all(input);
    child.wait_with_output().unwrap()
}

/// The run ended so, showed nothing, and said this.
pub fn expect_failure(output: &Output, status: i32, message: &str) {
    let said = String::from_utf8_lossy(&output.stderr);
    assert_eq!(output.status.code(), Some(status), "{said}");
    assert!(output.stdout.is_empty());
    assert_eq!(said, message);
}

/// What stands before the script: variables, and blocks without their comments.
pub struct Data {
    pub numbers: HashMap<String, i64>,
    pub blocks: HashMap<String, Vec<String>>,
}

impl Data {
    /// The data of an accepted card, and of a list.
    pub fn of(arguments: &[&Path]) -> Data {
        let output = run(&[&[Path::new("--data")], arguments].concat());
        let said = String::from_utf8_lossy(&output.stderr);
        assert_eq!((output.status.code(), &*said), (Some(0), ""));
        let text = String::from_utf8(output.stdout).unwrap();
        let (data, _) = text.split_once("# Draws the picture").unwrap();
        Data::parsed(data)
    }

    fn parsed(text: &str) -> Data {
        let mut data = Data {
            numbers: HashMap::new(),
            blocks: HashMap::new(),
        };
        let mut lines = text.lines();
        while let Some(line) = lines.next() {
            if let Some(name) = line.strip_prefix('$') {
                let name = name.strip_suffix(" << END").unwrap();
                let rows = lines.by_ref().take_while(|line| *line != "END");
                let rows = rows.filter(|line| !line.starts_with('#'));
                data.blocks
                    .insert(name.to_string(), rows.map(String::from).collect());
            } else if let Some((name, value)) = line.split_once(" = ") {
                if let Ok(number) = value.parse() {
                    data.numbers.insert(name.to_string(), number);
                }
            }
        }
        data
    }

    /// The whole numbers of a block, row by row.
    pub fn rows(&self, block: &str) -> Vec<Vec<i64>> {
        let numbers = |row: &String| row.split(' ').map(|word| word.parse().unwrap()).collect();
        self.blocks[block].iter().map(numbers).collect()
    }

    /// The lines of words of a block.
    pub fn words(&self, block: &str) -> Vec<&str> {
        let lines = self.blocks[block].iter();
        lines.map(|line| line.strip_prefix('|').unwrap()).collect()
    }

    /// The outlines of a block, each a list of points; a break in one counts as nothing.
    pub fn outlines(&self, block: &str) -> Vec<Vec<[f64; 2]>> {
        let text = self.blocks[block].join("\n");
        let outlines = text.split("\n\n\n").map(|outline| {
            let points = outline.lines().filter(|line| !line.is_empty());
            points.map(point).collect()
        });
        outlines.collect()
    }
}

fn point(line: &str) -> [f64; 2] {
    let (real, imaginary) = line.split_once(' ').unwrap();
    [real.parse().unwrap(), imaginary.parse().unwrap()]
}
