//! The part of the plane that the third panel shows, and where the names of the boxes stand in it.

use jusqani::{Interval, Rect};

use crate::OHM;

/// How far the frame reaches beyond the span at most, in sizes of the span, which counts as an ohm at least.
const REACH: f64 = 1.0;

/// What is left free around all that is drawn, as a part of its size.
const MARGIN: f64 = 0.06;

/// The size of a character of a label, and of the space around it, as parts of the frame.
const CHARACTER: f64 = 0.0135;
const HEIGHT: f64 = 0.05;

/// How far a line's middle is from what stands beside it, as a part of the frame.
const LINE: f64 = 0.007;

/// An area of the plane, in steps or in parts of the frame.
#[derive(Clone, Copy, PartialEq, Debug)]
pub struct Area {
    pub left: f64,
    pub right: f64,
    pub bottom: f64,
    pub top: f64,
}

impl From<Rect> for Area {
    fn from(rect: Rect) -> Area {
        Area {
            left: rect.resistance.low.into(),
            right: rect.resistance.high.into(),
            bottom: rect.reactance.low.into(),
            top: rect.reactance.high.into(),
        }
    }
}

impl Area {
    fn meets(&self, other: &Area) -> bool {
        let across = self.left < other.right && other.left < self.right;
        across && self.bottom < other.top && other.bottom < self.top
    }

    fn met_by(&self, others: &[Area]) -> usize {
        others.iter().filter(|other| self.meets(other)).count()
    }

    /// Whether some of the way from one point to another lies in it.
    pub fn is_crossed(&self, from: (f64, f64), to: (f64, f64)) -> bool {
        let across = inside(from.0, to.0, self.left, self.right);
        let up = inside(from.1, to.1, self.bottom, self.top);
        across.0.max(up.0) <= across.1.min(up.1)
    }

    fn grown(&self, by: f64) -> Area {
        Area {
            left: self.left - by,
            right: self.right + by,
            bottom: self.bottom - by,
            top: self.top + by,
        }
    }

    /// In parts of a frame.
    fn part_of(&self, frame: &Area) -> Area {
        let across = |r: f64| (r - frame.left) / (frame.right - frame.left);
        let up = |x: f64| (x - frame.bottom) / (frame.top - frame.bottom);
        Area {
            left: across(self.left),
            right: across(self.right),
            bottom: up(self.bottom),
            top: up(self.top),
        }
    }

    /// The point at so large parts of a frame, across and up.
    fn point(&self, across: f64, up: f64) -> (f64, f64) {
        (
            self.left + across * (self.right - self.left),
            self.bottom + up * (self.top - self.bottom),
        )
    }

    /// The areas that its four sides take as lines.
    fn lines(self) -> [Area; 4] {
        let across = |x: f64| Area {
            bottom: x - LINE,
            top: x + LINE,
            ..self
        };
        let upright = |r: f64| Area {
            left: r - LINE,
            right: r + LINE,
            ..self
        };
        [
            across(self.bottom),
            across(self.top),
            upright(self.left),
            upright(self.right),
        ]
    }

    fn holds(&self, other: &Area) -> bool {
        let across = self.left <= other.left && other.right <= self.right;
        across && self.bottom <= other.bottom && other.top <= self.top
    }
}

/// The part of the way between two numbers, from 0 to 1, that lies between two others: where it begins, and where it
/// ends, which is before that if there is none.
fn inside(from: f64, to: f64, low: f64, high: f64) -> (f64, f64) {
    if from == to {
        return if low <= from && from <= high {
            (0.0, 1.0)
        } else {
            (1.0, 0.0)
        };
    }
    let (one, other) = ((low - from) / (to - from), (high - from) / (to - from));
    (one.min(other).max(0.0), one.max(other).min(1.0))
}

/// The sides of one coordinate that hold the span and, as far as they are not too far away, the boxes.
fn sides(span: Interval, boxes: impl Iterator<Item = Interval>) -> (f64, f64) {
    let (low, high) = (f64::from(span.low), f64::from(span.high));
    let reach = REACH * (high - low).max(OHM);
    let (mut least, mut largest) = (low, high);
    for side in boxes {
        least = least.min(side.low.into());
        largest = largest.max(side.high.into());
    }
    let (least, largest) = (least.max(low - reach), largest.min(high + reach));
    let margin = MARGIN * (largest - least).max(1.0);
    (least - margin, largest + margin)
}

/// The frame around a span and the boxes of a list.
pub fn frame(span: Rect, boxes: &[Rect]) -> Area {
    let (left, right) = sides(
        span.resistance,
        boxes.iter().map(|limits| limits.resistance),
    );
    let (bottom, top) = sides(span.reactance, boxes.iter().map(|limits| limits.reactance));
    Area {
        left,
        right,
        bottom,
        top,
    }
}

/// The names of boxes in a frame. None stands on another.
pub struct Names {
    frame: Area,
    readings: Vec<Area>,
    boxes: Vec<Area>,
    taken: Vec<Area>,
}

impl Names {
    pub fn new(frame: Area, readings: impl Iterator<Item = Rect>, boxes: &[Rect]) -> Names {
        let parts = |rect: Rect| Area::from(rect).part_of(&frame);
        Names {
            readings: readings.map(parts).collect(),
            boxes: boxes.iter().map(|limits| parts(*limits)).collect(),
            taken: Vec::new(),
            frame,
        }
    }

    /// How many boxes lie around the whole frame, and how many out of it.
    pub fn around_and_beyond(&self) -> (usize, usize) {
        let around = self.boxes.iter().filter(|area| area.holds(&WHOLE));
        let beyond = self.boxes.iter().filter(|area| !area.meets(&WHOLE));
        (around.count(), beyond.count())
    }

    /// Where a box's name of so many characters begins, and its middle height, in steps. None where no line of the
    /// box is in the frame, or there is no room beside readings, or on them if it may stand there.
    pub fn place(&mut self, index: usize, characters: usize, anywhere: bool) -> Option<(f64, f64)> {
        let area = self.boxes[index];
        if area.holds(&WHOLE) || !area.meets(&WHOLE) {
            return None;
        }
        let spots = spots(area, CHARACTER * (characters as f64 + 1.0)).into_iter();
        let free = spots.filter(|spot| WHOLE.holds(spot) && spot.met_by(&self.taken) == 0);
        let free = free.filter(|spot| anywhere || spot.met_by(&self.readings) == 0);
        let spot = free.min_by_key(|spot| self.crowding(index, spot))?;
        self.taken.push(spot);
        let up = (spot.bottom + spot.top) / 2.0;
        Some(self.frame.point(spot.left + CHARACTER / 2.0, up))
    }

    /// How many readings are on a spot, how many lines go through it, and how many of other boxes pass it closely: the
    /// fewer, the better is seen what is there, and whose name it is.
    fn crowding(&self, index: usize, spot: &Area) -> (usize, usize, usize) {
        let near = spot.grown(LINE);
        let lines = |area: &Area, spot: &Area| spot.met_by(&area.lines());
        let all = self
            .boxes
            .iter()
            .map(|area| lines(area, &near))
            .sum::<usize>();
        (
            spot.met_by(&self.readings),
            self.boxes.iter().map(|area| lines(area, spot)).sum(),
            all - lines(&self.boxes[index], &near),
        )
    }
}

const WHOLE: Area = Area {
    left: 0.0,
    right: 1.0,
    bottom: 0.0,
    top: 1.0,
};

/// The spots for a label of some width at a box: inside along its top, its bottom, its left and its right side, then
/// above and below it.
fn spots(area: Area, width: f64) -> Vec<Area> {
    let (left, right) = (area.left.max(WHOLE.left), area.right.min(WHOLE.right));
    let (bottom, top) = (area.bottom.max(WHOLE.bottom), area.top.min(WHOLE.top));
    let (first, last) = (left + LINE, (right - LINE - width).max(left + LINE));
    let (highest, lowest) = (top - LINE - HEIGHT, bottom + LINE);
    let along = |level: f64| steps(first, last, CHARACTER).map(move |start| (start, level));
    let beside = |start: f64| steps(lowest, highest, HEIGHT / 2.0).map(move |level| (start, level));
    let inside = along(highest)
        .chain(along(lowest))
        .chain(beside(first))
        .chain(beside(last));
    let outside = along(top + LINE).chain(along(bottom - LINE - HEIGHT));
    let spot = |(left, bottom): (f64, f64)| Area {
        left,
        right: left + width,
        bottom,
        top: bottom + HEIGHT,
    };
    inside.chain(outside).map(spot).collect()
}

/// The numbers from one to another in steps, the first in any case.
fn steps(from: f64, to: f64, step: f64) -> impl Iterator<Item = f64> {
    let count = ((to - from) / step).max(0.0) as u32;
    (0..=count).map(move |k| from + step * f64::from(k))
}

#[cfg(test)]
mod tests {
    use super::*;

    fn rect(sides: [i32; 4]) -> Rect {
        sides.into()
    }

    const SPAN: [i32; 4] = [10_000, 20_000, -10_000, 0];

    #[test]
    fn frames_the_span_and_what_is_near() {
        let near = frame(rect(SPAN), &[rect([0, 40_000, -20_000, 10_000])]);
        let expected = Area {
            left: -1_800.0,
            right: 31_800.0,
            bottom: -21_800.0,
            top: 11_800.0,
        };
        assert_eq!(near, expected);
        let far = 16_777_216;
        let wide = frame(rect(SPAN), &[rect([-far, far, -far, far])]);
        assert_eq!((wide.left, wide.right), (-1_800.0, 31_800.0));
        let alone = frame(rect([5, 5, 5, 5]), &[]);
        assert!(alone.left < 5.0 && 5.0 < alone.right);
    }

    #[test]
    fn puts_no_name_on_another() {
        let limits = [rect([-2_000, 32_000, -20_000, 10_000]); 64];
        let around = frame(rect(SPAN), &limits);
        let mut names = Names::new(around, [rect(SPAN)].into_iter(), &limits);
        let placed = (0..64)
            .filter(|k| names.place(*k, 5, false).is_some())
            .count();
        assert!((20..64).contains(&placed), "{placed}");
        assert_eq!(names.taken.len(), placed);
        for (k, area) in names.taken.iter().enumerate() {
            assert!(WHOLE.holds(area) && area.met_by(&names.taken[..k]) == 0);
        }
    }

    /// The second box has its low reactance alone for itself.
    #[test]
    fn puts_a_name_where_it_is_seen_whose_it_is() {
        let limits = [
            rect([0, 30_000, -5_000, 10_000]),
            rect([0, 30_000, -15_000, 10_000]),
        ];
        let around = frame(rect(SPAN), &limits);
        let mut names = Names::new(around, [].into_iter(), &limits);
        let (_, up) = names.place(1, 4, false).unwrap();
        assert!(-15_000.0 < up && up < -12_000.0, "{up}");
    }

    /// A box within a reading has its name on it, and one that is larger beside it.
    #[test]
    fn puts_a_name_on_a_reading_where_it_must() {
        let limits = [
            rect([14_000, 16_000, -6_000, -4_000]),
            rect([10_000, 24_000, -10_000, 4_000]),
        ];
        let around = frame(rect(SPAN), &limits);
        let mut names = Names::new(around, [rect(SPAN)].into_iter(), &limits);
        assert_eq!(names.place(0, 4, false), None);
        let (across, up) = names.place(0, 4, true).unwrap();
        assert!((10_000.0..20_000.0).contains(&across) && (-10_000.0..0.0).contains(&up));
        let (_, up) = names.place(1, 4, false).unwrap();
        assert!(0.0 < up && up < 4_000.0, "{up}");
    }

    #[test]
    fn names_no_box_without_a_line_in_the_frame() {
        let far = rect([1_000_000, 1_000_001, 0, 1]);
        let wide = rect([-16_777_216, 16_777_216, -16_777_216, 16_777_216]);
        let around = frame(rect(SPAN), &[]);
        let mut names = Names::new(around, [].into_iter(), &[far, wide, rect(SPAN)]);
        assert_eq!(names.around_and_beyond(), (1, 1));
        assert_eq!(
            (names.place(0, 4, true), names.place(1, 4, true)),
            (None, None)
        );
        assert!(names.place(2, 4, false).is_some());
    }

    #[test]
    fn knows_which_way_crosses_an_area() {
        let crosses = |from, to| WHOLE.is_crossed(from, to);
        assert!(crosses((0.5, 0.5), (0.5, 0.5)));
        assert!(crosses((-9.0, 0.5), (9.0, 0.5)));
        assert!(crosses((0.5, 9.0), (0.5, -9.0)));
        assert!(crosses((-1.0, 1.5), (1.5, -1.0)));
        assert!(!crosses((-1.0, 1.5), (1.0, 1.5)));
        assert!(!crosses((-1.0, 1.5), (0.4, 1.6)));
        assert!(!crosses((-0.5, 0.4), (0.4, -0.5)));
        assert!(!crosses((2.0, 0.5), (3.0, 0.5)));
    }
}
