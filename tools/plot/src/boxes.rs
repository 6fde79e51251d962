//! The third panel's data: the boxes of a list, what became of them, their names, and the answer in words.

use jusqani::{Choice, Rect, Setting};

use crate::answers::{Answers, Chosen, Stretch, FIRST};
use crate::frame::{frame, Names};
use crate::text::{row, Text};
use crate::words::{self, Unshown};

/// What became of a record of a list, as the data numbers it.
#[derive(Clone, Copy, PartialEq, Eq, PartialOrd, Ord)]
enum Fate {
    Chosen = 1,
    FailedFirst = 2,
    Other = 3,
}

fn fate(chosen: &Chosen, index: usize) -> Fate {
    match chosen.choice {
        Choice::Fits { index: fits, .. } if fits == index => Fate::Chosen,
        _ if index == FIRST => Fate::FailedFirst,
        _ => Fate::Other,
    }
}

pub fn list(text: &mut Text, answers: &Answers, chosen: &Chosen) {
    let settings = &chosen.list.settings;
    let limits: Vec<Rect> = settings.iter().map(|setting| setting.limits).collect();
    let row = |(index, setting): (usize, &Setting)| {
        let behind = [setting.number.into(), fate(chosen, index) as u32];
        row(&[index as u32], setting.limits, &behind)
    };
    let columns = "index, four sides, setting number, 1 chosen, 2 the first that fails or 3";
    text.block("boxes", columns, settings.iter().enumerate().map(row));
    let around = frame(answers.span, &limits);
    text.number("frame_left", around.left);
    text.number("frame_right", around.right);
    text.number("frame_bottom", around.bottom);
    text.number("frame_top", around.top);
    let readings = answers.staged.iter().map(|reading| reading.load);
    let places = Names::new(around, readings, &limits);
    let (around, beyond) = places.around_and_beyond();
    let unnamed = settings.len() - around - beyond - names(text, chosen, places);
    let unshown = Unshown {
        around,
        beyond,
        unnamed,
    };
    text.words("answer", &words::answer(chosen, unshown));
}

/// The stretch of the band that the verdict on the first box that fails names, if there is a list and it names one.
pub fn stretch(text: &mut Text, chosen: Option<&Chosen>) {
    let stretch = chosen.and_then(Chosen::stretch);
    text.number("stretches", u8::from(stretch.is_some()));
    if let Some(Stretch { depth, index }) = stretch {
        text.number("depth", depth);
        text.number("index", index);
    }
}

/// The names of the boxes as far as there is room, and how many there are. That of the chosen one and that of the first
/// that fails come first, and may stand on a reading.
fn names(text: &mut Text, chosen: &Chosen, mut places: Names) -> usize {
    let settings = &chosen.list.settings;
    let mut order: Vec<usize> = (0..settings.len()).collect();
    order.sort_by_key(|index| fate(chosen, *index));
    let name = |index: usize| {
        let (number, fate) = (settings[index].number, fate(chosen, index));
        let name = match fate {
            Fate::Chosen => format!("{index}: {number} chosen"),
            Fate::FailedFirst => format!("{index}: {number} fails"),
            Fate::Other => format!("{index}: {number}"),
        };
        let (resistance, reactance) = places.place(index, name.len(), fate != Fate::Other)?;
        Some(format!("{resistance:.1} {reactance:.1} \"{name}\""))
    };
    let rows: Vec<String> = order.into_iter().filter_map(name).collect();
    let named = rows.len();
    text.number("names", named);
    text.block("names", "resistance, reactance, name", rows);
    named
}
