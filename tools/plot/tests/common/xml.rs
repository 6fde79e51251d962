//! Whether a text is well-formed XML, as far as pictures have it: no document type and no CDATA.

/// The contents of the elements of a name, or what is wrong with the text.
pub fn contents(text: &str, element: &str) -> Result<Vec<String>, String> {
    let mut reader = Reader {
        rest: text,
        open: Vec::new(),
        roots: 0,
        found: Vec::new(),
    };
    while !reader.rest.is_empty() {
        reader.step(element)?;
    }
    match (reader.open.pop(), reader.roots) {
        (Some(name), _) => Err(format!("{name} is not closed")),
        (None, 1) => Ok(reader.found),
        (None, roots) => Err(format!("{roots} elements stand outside of all others")),
    }
}

struct Reader<'a> {
    rest: &'a str,
    open: Vec<&'a str>,
    roots: usize,
    found: Vec<String>,
}

impl<'a> Reader<'a> {
    fn step(&mut self, element: &str) -> Result<(), String> {
        let start = self.rest.find('<').unwrap_or(self.rest.len());
        let (text, rest) = self.rest.split_at(start);
        let plain = plain(text)?;
        self.rest = rest;
        match self.open.last() {
            None if !plain.trim().is_empty() => return Err(format!("{plain:?} is in no element")),
            Some(name) if *name == element => self.found.push(plain),
            _ => (),
        }
        if rest.is_empty() {
            Ok(())
        } else if let Some(instruction) = rest.strip_prefix("<?") {
            self.pass(instruction, "?>").map(|_| ())
        } else if let Some(comment) = rest.strip_prefix("<!--") {
            self.pass(comment, "-->").map(|_| ())
        } else {
            let end = tag_end(rest).ok_or("a tag does not end")?;
            self.rest = &rest[end + 1..];
            self.tag(&rest[1..end])
        }
    }

    /// What stands before an ending, behind which the reader goes on.
    fn pass(&mut self, text: &'a str, ending: &str) -> Result<&'a str, String> {
        let (before, rest) = text
            .split_once(ending)
            .ok_or(format!("no {ending} follows"))?;
        self.rest = rest;
        Ok(before)
    }

    fn tag(&mut self, tag: &'a str) -> Result<(), String> {
        if let Some(name) = tag.strip_prefix('/') {
            return match self.open.pop() {
                Some(open) if open == name.trim_end() => Ok(()),
                open => Err(format!("{name} is closed where {open:?} is open")),
            };
        }
        let closed = tag.strip_suffix('/');
        let tag = closed.unwrap_or(tag);
        let end = tag.find(char::is_whitespace).unwrap_or(tag.len());
        let (name, attributes) = tag.split_at(end);
        check_name(name)?;
        check_attributes(attributes)?;
        self.roots += usize::from(self.open.is_empty());
        if closed.is_none() {
            self.open.push(name);
        }
        Ok(())
    }
}

/// Where the tag that a text begins with ends. In quotes no > ends it.
fn tag_end(text: &str) -> Option<usize> {
    let mut quote = None;
    text.find(|c: char| match (quote, c) {
        (Some(open), _) => {
            quote = (open != c).then_some(open);
            false
        }
        (None, '\'' | '"') => {
            quote = Some(c);
            false
        }
        (None, _) => c == '>',
    })
}

fn check_name(name: &str) -> Result<(), String> {
    let first = name.starts_with(|c: char| c.is_ascii_alphabetic() || c == '_');
    let others = name
        .chars()
        .all(|c| c.is_ascii_alphanumeric() || "_:.-".contains(c));
    (first && others)
        .then_some(())
        .ok_or(format!("{name:?} is no name"))
}

fn check_attributes(text: &str) -> Result<(), String> {
    let (mut rest, mut names) = (text, Vec::new());
    while !rest.trim_start().is_empty() {
        if !rest.starts_with(char::is_whitespace) {
            return Err(format!("no space before {rest:?}"));
        }
        let (name, value) = rest.split_once('=').ok_or(format!("no = in {rest:?}"))?;
        let name = name.trim();
        check_name(name)?;
        if names.contains(&name) {
            return Err(format!("{name} stands twice"));
        }
        names.push(name);
        let value = value.trim_start();
        let quote = value.chars().next().filter(|c| "'\"".contains(*c));
        let quote = quote.ok_or(format!("no quote in {value:?}"))?;
        let (inside, behind) = value[1..]
            .split_once(quote)
            .ok_or(format!("no second quote in {value:?}"))?;
        plain(inside)?;
        rest = behind;
    }
    Ok(())
}

/// A text without its references.
fn plain(text: &str) -> Result<String, String> {
    if text.contains("]]>") {
        return Err("]]> may not stand in a text".to_string());
    }
    let mut pieces = text.split('&');
    let mut plain = pieces.next().unwrap_or_default().to_string();
    for piece in pieces {
        let (name, rest) = piece
            .split_once(';')
            .ok_or(format!("a bare & before {piece:?}"))?;
        plain.push(match name {
            "amp" => '&',
            "lt" => '<',
            "gt" => '>',
            "quot" => '"',
            "apos" => '\'',
            _ => return Err(format!("&{name}; is not known")),
        });
        plain += rest;
    }
    let barred =
        |c: &char| c.is_control() && !c.is_whitespace() || *c >= '\u{fffe}' && *c <= '\u{ffff}';
    match plain.chars().find(barred) {
        Some(c) => Err(format!("{c:?} may not stand in a text")),
        None => Ok(plain),
    }
}
