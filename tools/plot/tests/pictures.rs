//! The pictures of examples/pictures, and where gnuplot is installed, pictures that are drawn anew.

mod common;
#[path = "common/xml.rs"]
mod xml;

use std::fs;
use std::path::{Path, PathBuf};

use common::{example, examples, run, written, Data};

/// The cards with a picture, and the lists that it shows.
const PICTURES: [(&str, Option<&str>); 3] = [
    ("dipole", Some("dipole.settings")),
    ("long_wire", Some("long_wire.settings")),
    ("reference_load", None),
];

/// The card and the list of a picture.
fn files(name: &str, list: Option<&str>) -> Vec<PathBuf> {
    let card = example(&format!("{name}.card"));
    [card].into_iter().chain(list.map(example)).collect()
}

fn paths(files: &[PathBuf]) -> Vec<&Path> {
    files.iter().map(PathBuf::as_path).collect()
}

fn picture(name: &str) -> String {
    fs::read_to_string(example(&format!("pictures/{name}.svg"))).unwrap()
}

#[test]
fn knows_what_is_not_well_formed() {
    let texts = |text| xml::contents(text, "text");
    let read = texts(
        "<?xml version='1.0'?>\n<svg a=\"1\"  b = '>'><!-- < --><text>a &lt; b</text><g/></svg>\n",
    );
    assert_eq!(read.unwrap(), ["a < b"]);
    for text in [
        "",
        "a<svg/>",
        "<svg/><svg/>",
        "<svg>",
        "<svg></g>",
        "<svg><g></svg></g>",
        "<svg>&</svg>",
        "<svg>&nbsp;</svg>",
        "<svg>\u{1b}</svg>",
        "<svg>\u{ffff}</svg>",
        "<svg>]]></svg>",
        "<svg a=1/>",
        "<svg a='1'b='2'/>",
        "<svg a='1' a='2'/>",
        "<svg a='1/>",
        "<svg a='&'/>",
        "<1/>",
        "<svg><!-- </svg>",
    ] {
        assert!(texts(text).is_err(), "{text}");
    }
}

/// The words of a picture's data.
fn words(data: &Data) -> Vec<&str> {
    let blocks = ["title", "answer", "beyond"].into_iter();
    let blocks = blocks.filter(|block| data.blocks.contains_key(*block));
    let lines = blocks.flat_map(|block| data.words(block));
    lines.filter(|line| !line.is_empty()).collect()
}

/// Each picture is well-formed and has the words of the data as they are today.
#[test]
fn stored_pictures_say_what_the_data_say() {
    assert_eq!(examples("pictures", "svg").len(), PICTURES.len());
    for (name, list) in PICTURES {
        let data = Data::of(&paths(&files(name, list)));
        let texts = xml::contents(&picture(name), "text").unwrap();
        let missing = |line: &&str| !texts.iter().any(|text| text == line);
        assert_eq!(words(&data).into_iter().find(missing), None, "{name}");
    }
}

/// The picture of some files.
fn drawn(files: &[PathBuf]) -> String {
    let output = run(&paths(files));
    let said = String::from_utf8_lossy(&output.stderr);
    assert_eq!((output.status.code(), &*said), (Some(0), ""));
    String::from_utf8(output.stdout).unwrap()
}

/// The program that drew a picture, as it says itself.
fn program(picture: &str) -> String {
    xml::contents(picture, "desc").unwrap().join("")
}

#[test]
#[ignore = "it needs gnuplot; tests/plot runs it where that is installed"]
fn draws_the_stored_pictures() {
    for (name, list) in PICTURES {
        let (stored, drawn) = (picture(name), drawn(&files(name, list)));
        assert!(!xml::contents(&drawn, "text").unwrap().is_empty());
        assert!(
            stored == drawn || program(&stored) != program(&drawn),
            "{name} is to be drawn anew"
        );
    }
}

#[test]
#[ignore = "it needs gnuplot; tests/plot runs it where that is installed"]
fn draws_every_card() {
    for card in examples("", "card") {
        let drawn = drawn(&[card]);
        assert!(xml::contents(&drawn, "text").unwrap().len() > 50);
    }
}

/// Names that gnuplot or XML could take for something else.
const NAMES: [&str; 8] = [
    "a'b\"c",
    "'; print 1; '",
    "`echo 1`",
    "x<y>&z",
    "a]]>b",
    "@title \\n %s {^2}",
    "$staged",
    "END",
];

#[test]
#[ignore = "it needs gnuplot; tests/plot runs it where that is installed"]
fn draws_a_card_whatever_its_name() {
    let card = fs::read_to_string(example("dipole.card")).unwrap();
    for name in NAMES {
        let drawn = drawn(&[written(&format!("{name}.card"), &card)]);
        let title = format!("{name}, degree 3");
        assert_eq!(xml::contents(&drawn, "title").unwrap(), [&*title]);
        assert!(xml::contents(&drawn, "text").unwrap().contains(&title));
    }
}

/// Loads about −50 ohms, which have no reflection, and the widest that there are.
#[test]
#[ignore = "it needs gnuplot; tests/plot runs it where that is installed"]
fn draws_loads_without_a_reflection() {
    let line = |sides: [i32; 4]| sides.map(|side| format!("{side:>10}")).concat() + "\n";
    let card = |from, to| format!("{:>10}\n{}{}", 1, line(from), line(to));
    let far = 16_777_216;
    for (k, text) in [
        card([-51_200, -51_200, 0, 0], [-51_200, -51_200, 0, 0]),
        card([-61_200, -41_200, -1_000, 1_000], [-51_200, 0, 0, 1]),
        card([-far, far, -far, far], [far, far, far, far]),
    ]
    .iter()
    .enumerate()
    {
        let drawn = drawn(&[written(&format!("reflection_{k}.card"), text)]);
        assert!(xml::contents(&drawn, "text").unwrap().len() > 50);
    }
}
