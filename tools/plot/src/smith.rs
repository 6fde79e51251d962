//! Rectangles of loads on the reflection plane at 50 ohms.

use jusqani::Rect;

use crate::OHM;

const REFERENCE: f64 = 50.0;

/// The part of the plane that is drawn reaches so far from its middle, across and up.
pub const WINDOW: f64 = 1.2;

/// A smaller distance is not seen there.
const SEEN: f64 = 0.001;

/// A load z as z + 50 ohms, so that 0 is the load of −50 ohms, which has no reflection.
#[derive(Clone, Copy)]
struct Load {
    resistance: f64,
    reactance: f64,
}

/// A point of the reflection plane.
#[derive(Clone, Copy, PartialEq, Debug)]
pub struct Point {
    pub real: f64,
    pub imaginary: f64,
}

const ORIGIN: Point = Point {
    real: 0.0,
    imaginary: 0.0,
};

impl Point {
    pub fn distance(self, other: Point) -> f64 {
        (self.real - other.real).hypot(self.imaginary - other.imaginary)
    }
}

impl Load {
    fn of(resistance: i32, reactance: i32) -> Load {
        Load {
            resistance: f64::from(resistance) / OHM + REFERENCE,
            reactance: f64::from(reactance) / OHM,
        }
    }

    /// (z − 50)/(z + 50), which is 1 − 100/(z + 50).
    fn reflection(self) -> Option<Point> {
        let square = self.dot(self);
        (square > 0.0).then(|| Point {
            real: 1.0 - 2.0 * REFERENCE * self.resistance / square,
            imaginary: 2.0 * REFERENCE * self.reactance / square,
        })
    }

    fn dot(self, other: Load) -> f64 {
        self.resistance * other.resistance + self.reactance * other.reactance
    }

    fn cross(self, other: Load) -> f64 {
        self.resistance * other.reactance - self.reactance * other.resistance
    }

    /// The load on the way to another one.
    fn towards(self, end: Load, part: f64) -> Load {
        Load {
            resistance: self.resistance + part * (end.resistance - self.resistance),
            reactance: self.reactance + part * (end.reactance - self.reactance),
        }
    }

    /// The load on the way to another one that is seen from −50 ohms after so much of a turn.
    fn turned(self, end: Load, turn: f64) -> Load {
        let (sine, cosine) = turn.sin_cos();
        let sight = Load {
            resistance: cosine * self.resistance - sine * self.reactance,
            reactance: sine * self.resistance + cosine * self.reactance,
        };
        let (ahead, behind) = (self.cross(sight), end.cross(sight));
        self.towards(end, ahead / (ahead - behind))
    }
}

/// Puts down the points of an edge's arc, without its end. None stands where it goes through infinity.
fn edge(from: Load, to: Load, points: &mut Vec<Option<Point>>) {
    if from.cross(to) != 0.0 {
        return arc(from, to, points);
    }
    // Seen from −50 ohms the edge is a point or a line that comes nearer or goes away.
    points.push(from.reflection());
    if from.dot(to) < 0.0 {
        points.push(None);
    }
}

/// The same of an edge that −50 ohms is not in line with. It is halved until the arc is nearly its chord. Since the
/// middle of the turn is that of the arc, the arc is farthest from its chord there.
fn arc(from: Load, to: Load, points: &mut Vec<Option<Point>>) {
    let middle = from.turned(to, from.cross(to).atan2(from.dot(to)) / 2.0);
    let ends = [from, middle, to].map(Load::reflection);
    match ends {
        [Some(a), Some(m), Some(b)] if is_bent(a, m, b) => {
            arc(from, middle, points);
            arc(middle, to, points);
        }
        [a, ..] => points.push(a),
    }
}

/// Whether an arc from a over m to b is seen to differ from its chord. Far away nothing is seen.
fn is_bent(a: Point, m: Point, b: Point) -> bool {
    let centre = Point {
        real: (a.real + b.real) / 2.0,
        imaginary: (a.imaginary + b.imaginary) / 2.0,
    };
    let height = m.distance(centre);
    let nearest = centre.distance(ORIGIN) - a.distance(centre) - height;
    height > SEEN && nearest < 2.0 * WINDOW
}

/// The outline of a rectangle's region, from its edges and back to its first point. None stands where it goes
/// through infinity, which only that of a rectangle with −50 ohms on an edge does.
pub fn outline(rect: Rect) -> Vec<Option<Point>> {
    let (r, x) = (rect.resistance, rect.reactance);
    let corners = [
        Load::of(r.low, x.low),
        Load::of(r.high, x.low),
        Load::of(r.high, x.high),
        Load::of(r.low, x.high),
        Load::of(r.low, x.low),
    ];
    let mut points = Vec::new();
    for two in corners.windows(2) {
        edge(two[0], two[1], &mut points);
    }
    points.push(corners[0].reflection());
    points
}

/// The reflection of the load in a rectangle's middle, if it has one.
pub fn middle(rect: Rect) -> Option<Point> {
    let (r, x) = (rect.resistance, rect.reactance);
    let (first, last) = (Load::of(r.low, x.low), Load::of(r.high, x.high));
    first.towards(last, 0.5).reflection()
}

/// Whether a region is what its outline encloses. That of a rectangle with −50 ohms in it or on an edge goes out
/// to infinity.
pub fn is_enclosed(rect: Rect) -> bool {
    let pole = -(REFERENCE * OHM) as i32;
    let (r, x) = (rect.resistance, rect.reactance);
    let holds = (r.low..=r.high).contains(&pole) && (x.low..=x.high).contains(&0);
    !holds
}

#[cfg(test)]
mod tests {
    use super::*;

    const STEPS: i32 = OHM as i32;

    /// Sides in ohms.
    fn rect(sides: [i32; 4]) -> Rect {
        sides.map(|side| side * STEPS).into()
    }

    #[test]
    fn reflects_known_loads() {
        let reflection = |r, x| Load::of(r * STEPS, x * STEPS).reflection();
        let point = |real, imaginary| Some(Point { real, imaginary });
        assert_eq!(reflection(50, 0), point(0.0, 0.0));
        assert_eq!(reflection(0, 0), point(-1.0, 0.0));
        assert_eq!(reflection(150, 0), point(0.5, 0.0));
        assert_eq!(reflection(0, 50), point(0.0, 1.0));
        assert_eq!(reflection(0, -50), point(0.0, -1.0));
        assert_eq!(reflection(-50, 0), None);
    }

    #[test]
    fn draws_arcs_in_small_steps() {
        let points = outline(rect([0, 16_384, -16_384, 16_384]));
        let points: Vec<Point> = points.into_iter().flatten().collect();
        let step = |two: &[Point]| two[0].distance(two[1]);
        let longest = points.windows(2).map(step).fold(0.0, f64::max);
        assert!(longest < 0.1, "{longest}");
    }

    #[test]
    fn breaks_at_infinity_alone() {
        assert!(outline(rect([-60, -40, -1, 1])).iter().all(Option::is_some));
        assert!(!is_enclosed(rect([-60, -40, -1, 1])));
        let on_edge = outline(rect([-60, -40, 0, 1]));
        assert_eq!(on_edge.iter().filter(|point| point.is_none()).count(), 1);
        let at_corner = outline(rect([-50, -40, 0, 1]));
        assert!(at_corner.first().unwrap().is_none() && at_corner.last().unwrap().is_none());
        assert!(!is_enclosed(rect([-50, -40, 0, 1])));
        assert!(is_enclosed(rect([-49, -40, -1, 1])));
        assert!(is_enclosed(rect([-60, -40, 1, 2])));
    }
}
