//! All that gnuplot is given: the calls' answers as its data, then the script that draws them.

use jusqani::{Evaluation, RECT_LENGTH, SIXTEENTHS};

use crate::answers::{Answers, Chosen};
use crate::boxes;
use crate::regions;
use crate::text::{row, Text};
use crate::words;

/// Draws whatever data stands in front of it.
const SCRIPT: &str = include_str!("picture.gnuplot");

pub fn text(name: &str, answers: &Answers, chosen: Option<&Chosen>) -> String {
    let mut text = Text::default();
    text.line("# Sides are in steps of 1/1,024 ohm, as the calls answer them.");
    let title = words::title(name, answers.curve.degree());
    text.words("title", &[title, words::guarantee(answers.steps())]);
    curve(&mut text, answers);
    regions::all(&mut text, answers);
    boxes::stretch(&mut text, chosen);
    text.number("settings", u8::from(chosen.is_some()));
    if let Some(chosen) = chosen {
        boxes::list(&mut text, answers, chosen);
    }
    text.0 + SCRIPT
}

fn curve(text: &mut Text, answers: &Answers) {
    text.number("degree", answers.curve.degree());
    let sides: [i32; RECT_LENGTH] = answers.span.into();
    let names = ["r_low", "r_high", "x_low", "x_high"];
    for (name, side) in names.into_iter().zip(sides) {
        text.number(name, side);
    }
    let control = answers.curve.control_points().zip(0..);
    let control = control.map(|(rect, k)| row(&[k], rect, &[]));
    text.block("control", "k, four sides", control);
    text.block("staged", READING, readings(&answers.staged));
    text.block("summed", READING, readings(&answers.summed));
}

const READING: &str = "j, four sides, 1 where it is lit";

fn readings(evaluations: &[Evaluation]) -> impl Iterator<Item = String> + '_ {
    let row = |(evaluation, j): (&Evaluation, u32)| {
        row(&[j], evaluation.load, &[evaluation.exact.into()])
    };
    evaluations.iter().zip(0..=SIXTEENTHS).map(row)
}
