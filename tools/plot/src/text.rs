//! gnuplot's text as it grows: variables, and blocks of data.

use std::fmt::{Display, Write};

use jusqani::{Rect, RECT_LENGTH};

/// The line that ends a block, and what stands before each line of words.
const END: &str = "END";
const MARK: char = '|';

#[derive(Default)]
pub struct Text(pub String);

impl Text {
    pub fn line(&mut self, line: &str) {
        self.0.push_str(line);
        self.0.push('\n');
    }

    pub fn number(&mut self, name: &str, value: impl Display) {
        writeln!(self.0, "{name} = {value}").expect("a string takes any text");
    }

    /// Words, in a block, where gnuplot takes a line as it is. Each stands behind a mark, since a line that only begins
    /// like the block's end would end it.
    pub fn words(&mut self, name: &str, lines: &[String]) {
        self.lines(name, lines.iter().map(|line| format!("{MARK}{line}")));
    }

    /// A block of rows, and what their columns are.
    pub fn block(&mut self, name: &str, columns: &str, rows: impl IntoIterator<Item = String>) {
        let columns = format!("# {columns}");
        self.lines(name, [columns].into_iter().chain(rows));
    }

    fn lines(&mut self, name: &str, lines: impl Iterator<Item = String>) {
        self.line(&format!("${name} << {END}"));
        for line in lines {
            self.line(&line);
        }
        self.line(END);
    }
}

/// A row of numbers, the sides of a rectangle, and numbers behind them.
pub fn row(before: &[u32], rect: Rect, behind: &[u32]) -> String {
    let sides: [i32; RECT_LENGTH] = rect.into();
    let before = before.iter().map(u32::to_string);
    let behind = behind.iter().map(u32::to_string);
    let sides = sides.iter().map(i32::to_string);
    let columns: Vec<String> = before.chain(sides).chain(behind).collect();
    columns.join(" ")
}

#[cfg(test)]
mod tests {
    use super::*;

    #[test]
    fn writes_what_gnuplot_reads() {
        let mut text = Text::default();
        text.number("degree", 3);
        text.words(
            "answer",
            &["'one' `two` @three \\n".to_string(), "four".to_string()],
        );
        let rows = [row(&[7], [1, 2, -3, 4].into(), &[0])];
        text.block("staged", "j, four sides, lit", rows);
        let expected = "degree = 3\n$answer << END\n|'one' `two` @three \\n\n|four\nEND\n\
                        $staged << END\n# j, four sides, lit\n7 1 2 -3 4 0\nEND\n";
        assert_eq!(text.0, expected);
    }
}
