//! What the picture says in words.

use jusqani::{Choice, Refusal, Verdict};

use crate::answers::{Chosen, FIRST};

/// The most characters of a card's name in the title, and of a line of the answer.
const NAME_WIDTH: usize = 40;
const LINE_WIDTH: usize = 52;

/// The first line of the title. What cannot be shown of a name, or has no room, is not.
pub fn title(name: &str, degree: u32) -> String {
    let hidden = |c: char| c.is_control() || ('\u{fffe}'..='\u{ffff}').contains(&c);
    let shown = |c: char| if hidden(c) { '?' } else { c };
    let mut name: String = name.chars().map(shown).collect();
    if name.chars().count() > NAME_WIDTH {
        name = name.chars().take(NAME_WIDTH).chain(['…']).collect();
    }
    format!("{name}, degree {degree}")
}

/// The second line: what demand 3 says of a reading straight from a card.
pub fn guarantee(steps: u32) -> String {
    let unit = if steps == 1 { "step" } else { "steps" };
    format!("every load lies inside; no side more than {steps} {unit} ({steps}/1,024 ohm) beyond the exact one")
}

/// The boxes that the third panel does not show in full: how many lie around its whole frame, how many out of it, and
/// how many in it have no name.
#[derive(Clone, Copy, PartialEq, Debug, Default)]
pub struct Unshown {
    pub around: usize,
    pub beyond: usize,
    pub unnamed: usize,
}

/// The answer to a list of settings, in lines.
pub fn answer(chosen: &Chosen, unshown: Unshown) -> Vec<String> {
    let mut sentences = vec![choice(chosen)];
    sentences.extend(chosen.failed.map(|verdict| failure(chosen, verdict)));
    let notes = [
        ("around the whole frame", unshown.around),
        ("beyond the frame", unshown.beyond),
        ("without room for a name", unshown.unnamed),
    ];
    let notes = notes.into_iter().filter(|(_, count)| *count > 0);
    let note = |(which, count)| format!("Boxes {which}: {count}.");
    let notes: Vec<String> = notes.map(note).collect();
    sentences.extend((!notes.is_empty()).then(|| notes.join(" ")));
    let paragraphs: Vec<Vec<String>> = sentences.iter().map(|text| wrapped(text)).collect();
    paragraphs.join(&String::new())
}

fn choice(chosen: &Chosen) -> String {
    let list = &chosen.list;
    match chosen.choice {
        Choice::Fits { index, number } => format!(
            "Setting {number} fits, record {index} of {} (counted from 0): every load of the band lies in its box.",
            list.settings.len()
        ),
        Choice::NoneFits => format!(
            "None fits: of {} no walk ended Inside, at depth {} and with {} for each.",
            counted(list.settings.len(), "record"),
            list.depth,
            counted(list.budget as usize, "piece")
        ),
    }
}

/// What `search` answers about the first box that fails.
fn failure(chosen: &Chosen, verdict: Verdict) -> String {
    let number = chosen.list.settings[FIRST].number;
    let end = match verdict {
        Verdict::Inside { .. } => {
            unreachable!("record {FIRST} failed, and its search ended Inside")
        }
        Verdict::Outside { depth, index, .. } => {
            let stretch = stretch(depth, index);
            format!("Outside at depth {depth}, index {index}: {stretch} no load lies in it")
        }
        Verdict::Undecided { depth, index, .. } => {
            let stretch = stretch(depth, index);
            format!("Undecided at depth {depth}, index {index}: {stretch}, at the depth limit, it is not known whether all loads lie in it")
        }
        Verdict::Spent { count } => {
            let pieces = counted(count as usize, "piece");
            format!("Spent: after {pieces} not all was decided")
        }
    };
    format!("Record {FIRST}, setting {number}, fails first. A search of its box ends {end}.")
}

fn stretch(depth: u32, index: u32) -> String {
    let (pieces, next) = (1 << depth, index + 1);
    format!("on the stretch from {index}/{pieces} to {next}/{pieces} of the band")
}

/// What is said of readings that the Smith chart does not show, whose resistance is far below zero, and of those
/// whose region is not what their outline encloses.
pub fn beyond(unseen: usize, open: usize) -> Vec<String> {
    let note = |count, what: &str| match count {
        0 => String::new(),
        _ => format!("{} {what}", counted(count, "reading")),
    };
    vec![
        note(unseen, "beyond this part of the plane"),
        note(open, "with −50 ohm, filling all outside of the outline"),
    ]
}

/// A count with its word.
fn counted(count: usize, word: &str) -> String {
    let ending = if count == 1 { "" } else { "s" };
    format!("{count} {word}{ending}")
}

/// A sentence in lines, broken at its spaces.
fn wrapped(sentence: &str) -> Vec<String> {
    let mut lines = vec![String::new()];
    for word in sentence.split(' ') {
        let line = lines.last_mut().expect("a line is there from the start");
        if line.is_empty() {
            line.push_str(word);
        } else if line.chars().count() + 1 + word.chars().count() <= LINE_WIDTH {
            line.push(' ');
            line.push_str(word);
        } else {
            lines.push(word.to_string());
        }
    }
    lines
}

/// The bytes of a card's first line and of the others.
const FIRST_LINE: u32 = 11;
const LINE: u32 = 41;

/// A card's refusal, and where in its text that is. A length that was cut off is at least that long.
pub fn refused_card(refusal: Refusal, cut_off: bool) -> String {
    let place = refusal.place;
    let spot = match refusal.number {
        1 => ", in line 1".to_string(),
        2 | 3 => format!(
            " (counted from 0), line {} of the card (counted from 1)",
            place + 2
        ),
        11 if place < FIRST_LINE => format!(
            " (counted from 0), line 1, byte {} (counted from 1)",
            place + 1
        ),
        11 => {
            let behind = place - FIRST_LINE;
            format!(
                " (counted from 0), line {}, byte {} (counted from 1)",
                behind / LINE + 2,
                behind % LINE + 1
            )
        }
        10 if cut_off => " or more".to_string(),
        _ => String::new(),
    };
    format!("{refusal}{spot}")
}

/// A list's refusal, and where in its text that is.
pub fn refused_list(refusal: Refusal) -> String {
    match refusal.number {
        7 => {
            let line = refusal.place + 2;
            format!("{refusal} (counted from 0), line {line} of the list (counted from 1)")
        }
        _ => refusal.to_string(),
    }
}

#[cfg(test)]
mod tests {
    use super::*;
    use crate::answers::List;
    use jusqani::Setting;

    fn said(choice: Choice, failed: Option<Verdict>) -> String {
        let settings = vec![
            Setting {
                number: 3,
                ..Setting::default()
            };
            6
        ];
        let list = List {
            settings,
            depth: 6,
            budget: 500,
        };
        let chosen = Chosen {
            list,
            choice,
            failed,
        };
        answer(&chosen, Unshown::default()).join(" ")
    }

    #[test]
    fn says_what_the_title_has() {
        assert_eq!(title("dipole", 3), "dipole, degree 3");
        assert_eq!(title("a\nb\u{7f}c\u{ffff}", 8), "a?b?c?, degree 8");
        let long = title(&"é".repeat(99), 1);
        assert_eq!(long, format!("{}…, degree 1", "é".repeat(40)));
        assert_eq!(
            guarantee(8),
            "every load lies inside; no side more than 8 steps (8/1,024 ohm) beyond the exact one"
        );
        assert!(guarantee(1).contains(" 1 step (1/1,024 ohm) "));
    }

    #[test]
    fn says_which_setting_fits() {
        let first = Choice::Fits {
            index: 0,
            number: 3,
        };
        let fits = "Setting 3 fits, record 0 of 6 (counted from 0): every load of the band lies in its box.";
        assert_eq!(said(first, None), fits);
        let none = "None fits: of 6 records no walk ended Inside, at depth 6 and with 500 pieces for each.";
        let outside = Verdict::Outside {
            depth: 2,
            index: 3,
            count: 9,
        };
        let left = "Record 0, setting 3, fails first. A search of its box ends Outside at depth 2, index 3: on the stretch from 3/4 to 4/4 of the band no load lies in it.";
        assert_eq!(
            said(Choice::NoneFits, Some(outside)),
            format!("{none}  {left}")
        );
    }

    #[test]
    fn says_where_the_first_box_was_left() {
        let undecided = Verdict::Undecided {
            depth: 6,
            index: 52,
            count: 70,
        };
        let left = said(Choice::NoneFits, Some(undecided));
        let words = "ends Undecided at depth 6, index 52: on the stretch from 52/64 to 53/64 of the band, at the depth limit, it is not known whether all loads lie in it.";
        assert!(left.ends_with(words), "{left}");
        let spent = said(Choice::NoneFits, Some(Verdict::Spent { count: 1 }));
        let words = "A search of its box ends Spent: after 1 piece not all was decided.";
        assert!(spent.ends_with(words), "{spent}");
    }

    #[test]
    fn breaks_lines_at_spaces() {
        let sentence = "word ".repeat(40).trim_end().to_string();
        let lines = wrapped(&sentence);
        assert!(lines.len() > 1 && lines.iter().all(|line| line.len() <= LINE_WIDTH));
        assert_eq!(lines.join(" "), sentence);
    }

    #[test]
    fn says_where_a_card_is_refused() {
        let words = |number, place| refused_card(Refusal { number, place }, false);
        assert!(words(1, 0).ends_with("1 to 8, in line 1"));
        assert!(words(3, 1)
            .ends_with(", in rectangle 1 (counted from 0), line 3 of the card (counted from 1)"));
        assert!(words(11, 10)
            .ends_with(", at offset 10 (counted from 0), line 1, byte 11 (counted from 1)"));
        assert!(words(11, 51)
            .ends_with(", at offset 51 (counted from 0), line 2, byte 41 (counted from 1)"));
        assert!(words(11, 52)
            .ends_with(", at offset 52 (counted from 0), line 3, byte 1 (counted from 1)"));
        let refusal = Refusal {
            number: 10,
            place: 4096,
        };
        assert!(refused_card(refusal, true).ends_with(", it has 4096 bytes or more"));
        assert!(refused_card(refusal, false).ends_with(", it has 4096 bytes"));
    }
}
