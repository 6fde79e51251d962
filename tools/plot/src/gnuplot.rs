//! The picture that gnuplot draws.

use std::io::{self, ErrorKind, Write};
use std::process::{Command, Stdio};
use std::thread;

/// The picture that gnuplot draws from a text, or why there is none. What gnuplot says goes to standard error.
pub fn picture(text: &str) -> Result<String, String> {
    let mut command = Command::new("gnuplot");
    command.args(["--default-settings", "-"]);
    // In a locale without these characters it warns that it cannot convert one.
    command.env("LC_ALL", "C.UTF-8");
    command.stdin(Stdio::piped()).stdout(Stdio::piped());
    let mut gnuplot = command.spawn().map_err(not_run)?;
    let mut input = gnuplot.stdin.take().expect("its input is a pipe");
    // It may draw before it has read everything, so both are done at once. Whether it read all is told by its status.
    let drawn = thread::scope(|scope| {
        scope.spawn(move || input.write_all(text.as_bytes()));
        gnuplot.wait_with_output()
    });
    let drawn = drawn.map_err(not_run)?;
    if !drawn.status.success() {
        return Err(format!(
            "gnuplot did not draw the picture ({}); what it said stands above",
            drawn.status
        ));
    }
    let picture = String::from_utf8(drawn.stdout).unwrap_or_default();
    if !picture.trim_end().ends_with("</svg>") {
        return Err("gnuplot drew no whole picture".to_string());
    }
    Ok(picture)
}

fn not_run(error: io::Error) -> String {
    match error.kind() {
        ErrorKind::NotFound => {
            "gnuplot is not on the path: it draws the picture (Debian's package gnuplot-nox)"
                .to_string()
        }
        _ => format!("gnuplot cannot be run: {error}"),
    }
}

/// A picture with a title of its own. gnuplot's titles are what it was told to draw, which a browser would show over
/// each part. Words with what ends a CDATA section, which gnuplot leaves as it is, are put as XML wants them.
pub fn titled(picture: &str, title: &str) -> String {
    let title = title.replace('&', "&amp;").replace('<', "&lt;");
    let mut titles = [format!("<title>{title}</title>")].into_iter();
    let mut titled = String::with_capacity(picture.len());
    let mut rest = picture;
    while let Some((before, behind)) = rest.split_once("<title>") {
        titled += before;
        titled += &titles.next().unwrap_or_default();
        rest = behind.split_once("</title>").map_or("", |(_, rest)| rest);
    }
    (titled + rest).replace("]]>", "]]&gt;")
}

#[cfg(test)]
mod tests {
    use super::*;

    #[test]
    fn has_one_title() {
        let drawn = "<svg><text>]]></text>\n<title>Gnuplot</title>\n<g ><title>$a using 1:2</title>\n<p/></g><g><title>b</title></g>\n</svg>";
        let expected = "<svg><text>]]&gt;</text>\n<title>x &lt; y &amp; z</title>\n<g >\n<p/></g><g></g>\n</svg>";
        assert_eq!(titled(drawn, "x < y & z"), expected);
        assert_eq!(titled("<svg/>", "a"), "<svg/>");
    }
}
