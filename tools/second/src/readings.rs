//! What document 02 says of flags and of the second reading: a flag is lit exactly if all sides are the exact ones,
//! of both readings, of pieces and of a raising; and the summed reading lies in the staged one, no side a whole
//! step from the exact one.

use crate::ask::{Ask, Given};
use crate::compare::{Stored, Trial};
use crate::draw;
use crate::fractions::Bernstein;
use crate::model::{Curve, Parameter, Rectangle, SIXTEENTHS};
use crate::rng::Rng;

/// Tries the flag of a drawn call, and of a summed reading also where its sides lie.
pub fn check(trial: &mut Trial) -> Result<(), String> {
    let draws = [
        draw::evaluate,
        draw::subdivide,
        draw::elevate,
        draw::evaluate_sixteenths,
    ];
    let ask = trial.rng.pick::<fn(&mut Rng) -> Ask>(&draws)(&mut trial.rng);
    let Some(stored) = trial.ask(&ask)? else {
        return Ok(());
    };
    let (exact, [dark, lit]) = exactness(&ask, &stored);
    if exact != stored.is_exact() {
        return Err(format!(
            "the flag is not that of exact sides\n{ask:?}\n{stored:?}"
        ));
    }
    trial.coverage.hold(if exact { lit } else { dark });
    match ask {
        Ask::EvaluateSixteenths { curve, j } => check_sum(trial, curve, j, &stored.rectangle()),
        _ => Ok(()),
    }
}

/// Whether all sides that a call stored are the exact ones, and the facts for a dark flag and a lit one.
fn exactness(ask: &Ask, stored: &Stored) -> (bool, [&'static str; 2]) {
    let load = stored.rectangle();
    let piece = |k: usize| Given::stored(&stored.buffers[k]).curve();
    match ask {
        Ask::Evaluate { curve, t } => (
            exact_load(&curve.curve(), *t, &load),
            ["a dark reading is not", "a lit reading is exact"],
        ),
        Ask::EvaluateSixteenths { curve, j } => (
            exact_load(&curve.curve(), at_sixteenth(*j), &load),
            ["a dark sum is not", "a lit sum is exact"],
        ),
        Ask::Subdivide { curve, t } => (
            exact_pieces(&curve.curve(), *t, &[piece(0), piece(1)]),
            ["dark pieces are not", "lit pieces are exact"],
        ),
        Ask::Elevate { curve } => (
            exact_raised(&curve.curve(), &piece(0)),
            ["a dark raising is not", "a lit raising is exact"],
        ),
        _ => unreachable!("a call with an exact flag"),
    }
}

fn at_sixteenth(j: u32) -> Parameter {
    let (num, den) = (j, SIXTEENTHS);
    Parameter { num, den }
}

fn weights(degree: usize, t: Parameter) -> Bernstein {
    Bernstein::at(degree, &t.num.into(), &t.den.into())
}

fn exact_load(curve: &Curve, t: Parameter, load: &Rectangle) -> bool {
    weights(curve.degree, t).equals(curve.control_points(), load)
}

/// Point k of the left piece is the Bernstein sum of the points 0 to k, and point k of the right one that of the
/// points k to n.
fn exact_pieces(curve: &Curve, t: Parameter, [left, right]: &[Curve; 2]) -> bool {
    let (n, points) = (curve.degree, curve.control_points());
    (0..=n).all(|k| {
        let weights = weights(k, t);
        weights.equals(&points[..=k], &left.points[k])
            && weights.equals(&points[n - k..], &right.points[n - k])
    })
}

/// New point k times n + 1 is k × P(k-1) + (n + 1 - k) × P(k), where an absent point has factor 0.
fn exact_raised(curve: &Curve, raised: &Curve) -> bool {
    let m = curve.degree as i64 + 1;
    (0..=curve.degree + 1).all(|k| {
        let [before, here] = [k.saturating_sub(1), k.min(curve.degree)].map(|k| curve.points[k]);
        let k_times = k as i64;
        (0..4).all(|s| m * raised.points[k][s] == k_times * before[s] + (m - k_times) * here[s])
    })
}

/// The summed reading lies in the staged one at j/16, and no side a whole step from the exact one.
fn check_sum(trial: &mut Trial, curve: Given, j: u32, load: &Rectangle) -> Result<(), String> {
    let read = curve.curve();
    let weights = weights(read.degree, at_sixteenth(j));
    let near = is_near(&weights, read.control_points(), load);
    let ask = Ask::Evaluate {
        curve,
        t: at_sixteenth(j),
    };
    let Some(staged) = trial.ask(&ask)? else {
        return Ok(());
    };
    if !near || !lies_in(load, &staged.rectangle()) {
        return Err(format!(
            "the sum {load:?} is not near or not in the staged\n{ask:?}\n{staged:?}"
        ));
    }
    trial
        .coverage
        .hold("a summed reading lies in the staged one");
    Ok(())
}

/// Whether each side is at the exact one or outward of it by less than a step.
fn is_near(weights: &Bernstein, points: &[Rectangle], load: &Rectangle) -> bool {
    let to = |side: usize, number: i64| weights.side_beside(points, side, number);
    (0..4).all(|side| match side % 2 {
        0 => to(side, load[side]).is_ge() && to(side, load[side] + 1).is_lt(),
        _ => to(side, load[side]).is_le() && to(side, load[side] - 1).is_gt(),
    })
}

/// Whether a rectangle lies inside another, edges included.
fn lies_in(inner: &Rectangle, outer: &Rectangle) -> bool {
    [0, 2].iter().all(|low| {
        let high = low + 1;
        inner[*low] >= outer[*low] && inner[high] <= outer[high]
    })
}

#[cfg(test)]
mod tests {
    use super::*;

    const HALF: Parameter = Parameter { num: 1, den: 2 };

    fn values(values: &[i64]) -> Curve {
        let points: Vec<Rectangle> = values.iter().map(|v| [*v; 4]).collect();
        Curve::new(&points)
    }

    #[test]
    fn knows_exact_sides() {
        let curve = values(&[0, 4, 0]);
        assert!(exact_load(&curve, HALF, &[2; 4]) && !exact_load(&curve, HALF, &[2, 2, 2, 3]));
        let [left, right] = [[0, 2, 2], [2, 2, 0]].map(|half| values(&half));
        assert!(exact_pieces(&curve, HALF, &[left, right]));
        assert!(!exact_pieces(&curve, HALF, &[left, values(&[2, 1, 0])]));
        assert!(!exact_pieces(&curve, HALF, &[values(&[0, 2, 3]), right]));
        assert!(exact_raised(&values(&[0, 2]), &values(&[0, 1, 2])));
        assert!(!exact_raised(&values(&[0, 2]), &values(&[0, 2, 2])));
    }

    /// Values 1, 0, 3 at 7/16 are 228/256.
    #[test]
    fn knows_a_side_that_is_near() {
        let (curve, weights) = (values(&[1, 0, 3]), weights(2, at_sixteenth(7)));
        let near = |load: [i64; 4]| is_near(&weights, curve.control_points(), &load);
        assert!(near([0, 1, 0, 1]));
        for (side, by) in (0..4).flat_map(|side| [(side, -1), (side, 1)]) {
            let mut load = [0, 1, 0, 1];
            load[side] += by;
            assert!(!near(load), "side {side}, {by}");
            assert_eq!(lies_in(&load, &[0, 1, 0, 1]), (by > 0) == (side % 2 == 0));
        }
    }
}
