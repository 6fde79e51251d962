//! The second panel's data: the regions on the reflection plane, and where names stand among them.

use jusqani::{Evaluation, Rect, SIXTEENTHS};

use crate::answers::Answers;
use crate::frame::Area;
use crate::smith::{is_enclosed, middle, outline, Point, WINDOW};
use crate::text::Text;
use crate::words;

pub fn all(text: &mut Text, answers: &Answers) {
    let (staged, summed) = (loads(&answers.staged), loads(&answers.summed));
    let control: Vec<Rect> = answers.curve.control_points().collect();
    outlines(text, "control_outlines", &control);
    outlines(text, "span_outline", &[answers.span]);
    outlines(text, "staged_outlines", &staged);
    outlines(text, "summed_outlines", &summed);
    let enclosed = summed.into_iter().filter(|load| is_enclosed(*load));
    let enclosed: Vec<Rect> = enclosed.collect();
    text.number("regions", enclosed.len());
    outlines(text, "summed_regions", &enclosed);
    lit(text, &answers.summed);
    text.number("window", WINDOW);
    let unseen = staged.iter().filter(|load| !is_in(&DRAWN, **load)).count();
    let open = staged.iter().filter(|load| !is_enclosed(**load)).count();
    text.words("beyond", &words::beyond(unseen, open));
    let half = free_half(staged.iter().flat_map(|load| points(*load)));
    text.number("side", half);
    ratios(text, half, &[&control[..], &staged].concat());
    ends(text, staged[0], staged[SIXTEENTHS as usize]);
}

fn loads(evaluations: &[Evaluation]) -> Vec<Rect> {
    evaluations.iter().map(|reading| reading.load).collect()
}

/// A point that is not drawn.
const UNSEEN: Point = Point {
    real: 2.0 * WINDOW,
    imaginary: 2.0 * WINDOW,
};

/// Two empty lines end an outline, and one is a break in it. gnuplot warns of a block without a point, so that one has
/// a point that is not drawn.
fn outlines(text: &mut Text, name: &str, rects: &[Rect]) {
    let mut rows = Vec::new();
    for rect in rects {
        let points = outline(*rect).into_iter();
        rows.extend(points.map(|point| point.map_or_else(String::new, place)));
        rows.extend([String::new(), String::new()]);
    }
    if rows.iter().all(String::is_empty) {
        rows.push(place(UNSEEN));
    }
    text.block(name, "reflection, real and imaginary", rows);
}

fn place(point: Point) -> String {
    format!("{:.9} {:.9}", point.real, point.imaginary)
}

/// The middles of the summed readings that are lit. Wherever the staged one is, the summed one is too.
fn lit(text: &mut Text, summed: &[Evaluation]) {
    let lit = summed.iter().filter(|reading| reading.exact);
    let row = |reading: &Evaluation| place(middle(reading.load).unwrap_or(UNSEEN));
    text.block("lit", "reflection, real and imaginary", lit.map(row));
}

fn points(rect: Rect) -> impl Iterator<Item = Point> {
    outline(rect).into_iter().flatten()
}

/// The part of the plane that is drawn.
const DRAWN: Area = Area {
    left: -WINDOW,
    right: WINDOW,
    bottom: -WINDOW,
    top: WINDOW,
};

fn is_drawn(point: &Point) -> bool {
    point.real.abs() <= WINDOW && point.imaginary.abs() <= WINDOW
}

/// Whether something of a rectangle's outline lies in an area.
fn is_in(area: &Area, rect: Rect) -> bool {
    let outline = outline(rect);
    let at = |point: &Point| (point.real, point.imaginary);
    let mut ways = outline.windows(2);
    ways.any(|way| matches!(way, [Some(from), Some(to)] if area.is_crossed(at(from), at(to))))
}

/// The half of the plane where fewer of some points are, above or below the middle, as a sign.
fn free_half(points: impl Iterator<Item = Point>) -> i32 {
    let above: f64 = points.map(|point| point.imaginary.signum()).sum();
    if above > 0.0 {
        -1
    } else {
        1
    }
}

/// The standing wave ratios whose circles are drawn.
const RATIOS: [&str; 3] = ["1.5", "2", "3"];

/// Half the size of such a circle's name, and how far its middle is from the circle.
const RATIO_NAME: (f64, f64) = (0.14, 0.04);
const RATIO_DISTANCE: f64 = 0.05;

/// How far the names of the circles are turned from the top or the bottom, in degrees, in the order that it is tried.
const TURNS: [f64; 5] = [0.0, 20.0, -20.0, 40.0, -40.0];

/// The circles of standing wave ratios and where their names stand: in the free half, or else in the other one, where
/// they hide no outline of some rectangles.
fn ratios(text: &mut Text, half: i32, kept: &[Rect]) {
    let upright = f64::from(half) * 90.0;
    let turned = |start: f64| TURNS.map(|turn| start + turn);
    let angles = [turned(upright), turned(-upright)].concat();
    let clear = angles.iter().find(|angle| is_clear(**angle, kept));
    let angle = clear.copied().unwrap_or(upright);
    let row = |ratio| {
        let Point { real, imaginary } = ratio_name(ratio, angle);
        format!("{ratio} {real:.3} {imaginary:.3}")
    };
    let columns = "ratio, and the middle of its name, real and imaginary";
    text.block("ratios", columns, RATIOS.map(row));
}

/// The middle of the name of a ratio's circle at an angle.
fn ratio_name(ratio: &str, angle: f64) -> Point {
    let ratio: f64 = ratio.parse().expect("a ratio is a number");
    let distance = (ratio - 1.0) / (ratio + 1.0) + RATIO_DISTANCE;
    let (sine, cosine) = angle.to_radians().sin_cos();
    Point {
        real: distance * cosine,
        imaginary: distance * sine,
    }
}

/// Whether no outline of some rectangles goes through the names at an angle.
fn is_clear(angle: f64, kept: &[Rect]) -> bool {
    let names = RATIOS.map(|ratio| {
        let Point { real, imaginary } = ratio_name(ratio, angle);
        Area {
            left: real - RATIO_NAME.0,
            right: real + RATIO_NAME.0,
            bottom: imaginary - RATIO_NAME.1,
            top: imaginary + RATIO_NAME.1,
        }
    });
    let hidden = |rect: &Rect| names.iter().any(|name| is_in(name, *rect));
    !kept.iter().any(hidden)
}

/// To the right of a point beyond this stand the names of circles and arcs.
const RIGHT_END: f64 = 0.45;

/// The width of a character, and the least distance of two names.
const CHARACTER: f64 = 0.04;
const NAME_DISTANCE: f64 = 0.12;

/// The names of the readings where the band begins and ends: one for both where they are close.
fn ends(text: &mut Text, first: Rect, last: Rect) {
    let names = match (beside(first, "0"), beside(last, "16")) {
        (Some(a), Some(b)) if a.distance(b) < NAME_DISTANCE => vec![(first, "0,16")],
        _ => vec![(first, "0"), (last, "16")],
    };
    let row = |(rect, name): (Rect, &str)| {
        let Point { real, imaginary } = beside(rect, name)?;
        Some(format!("{real:.3} {imaginary:.3} {name}"))
    };
    let rows: Vec<String> = names.into_iter().filter_map(row).collect();
    text.number("ends", rows.len());
    let columns = "middle of a name, real and imaginary, and the name";
    text.block("ends", columns, rows);
}

/// The middle of a name to the right of what is drawn of a rectangle's outline, or to its left where that is near the
/// right end of the plane. None where nothing of it is drawn.
fn beside(rect: Rect, name: &str) -> Option<Point> {
    let drawn = || points(rect).filter(is_drawn);
    let rightmost = drawn().max_by(|a, b| a.real.total_cmp(&b.real))?;
    let leftmost = drawn().min_by(|a, b| a.real.total_cmp(&b.real))?;
    let distance = CHARACTER * (1.0 + name.chars().count() as f64 / 2.0);
    let (point, away) = if rightmost.real <= RIGHT_END {
        (rightmost, distance)
    } else {
        (leftmost, -distance)
    };
    let real = point.real + away;
    Some(Point { real, ..point })
}

#[cfg(test)]
mod tests {
    use super::*;

    /// Sides in ohms.
    fn rect(sides: [i32; 4]) -> Rect {
        sides.map(|side| side * 1024).into()
    }

    #[test]
    fn puts_names_beside_what_is_drawn() {
        let left = beside(rect([10, 11, 0, 1]), "0").unwrap();
        assert!(-0.64 < left.real && left.real < -0.56, "{left:?}");
        let right = beside(rect([500, 501, 0, 1]), "0").unwrap();
        assert!(0.7 < right.real && right.real < 0.8, "{right:?}");
        assert_eq!(beside(rect([-30, -29, -3, -2]), "0"), None);
        let seen = |sides| is_in(&DRAWN, rect(sides));
        assert!(!seen([-30, -29, -3, -2]) && seen([-1, 0, 0, 1]));
    }

    #[test]
    fn looks_for_the_free_half() {
        let above = points(rect([50, 60, 10, 20]));
        assert_eq!(free_half(above), -1);
        let below = points(rect([50, 60, -20, -10]));
        assert_eq!(free_half(below), 1);
    }

    /// At 270 degrees the name of ratio 2 is at −0.38, where the load 38.5 − 33.5j is.
    #[test]
    fn looks_for_names_that_are_clear() {
        assert!(is_clear(-90.0, &[rect([50, 51, 0, 1])]));
        let at_two = rect([38, 39, -34, -33]);
        assert!(!is_clear(-90.0, &[at_two]) && is_clear(90.0, &[at_two]));
        let around = rect([1, 1000, -1000, 1000]);
        assert!(is_clear(-90.0, &[around]));
    }
}
