//! What the verdicts mean: after Inside every ordinary curve's load lies in the box, at or above its low sides and
//! strictly below its high ones; after Outside none does on the stretch of the piece that is named.

use crate::ask::{search_of, Ask};
use crate::compare::Trial;
use crate::draw;
use crate::fractions::{Bernstein, Ordinary};
use crate::model::{Curve, Rectangle};
use crate::rng::Rng;
use crate::search::{INSIDE, OUTSIDE};

/// A stretch is tried at both ends and at one place between, a whole number of these parts from its start.
const PARTS: u32 = 256;

/// Tries a drawn search.
pub fn check(trial: &mut Trial) -> Result<(), String> {
    let ask = draw::search(&mut trial.rng);
    let Some(stored) = trial.ask(&ask)? else {
        return Ok(());
    };
    let Ask::Search {
        curve,
        limits,
        effort,
    } = &ask
    else {
        return Ok(());
    };
    let (box_sides, words) = (search_of(limits, *effort).limits, &stored.buffers[0]);
    let [verdict, depth, index] = [0, 1, 2].map(|k| words[k] as u32);
    let fact = match verdict {
        INSIDE => "Inside",
        OUTSIDE => "Outside",
        _ => return Ok(()),
    };
    let inside = verdict == INSIDE;
    if !holds(
        &curve.curve(),
        &box_sides,
        inside,
        (depth, index),
        &mut trial.rng,
    ) {
        return Err(format!(
            "a load is not where the verdict says\n{ask:?}\n{stored:?}"
        ));
    }
    trial.coverage.hold(fact);
    Ok(())
}

/// Whether the loads of some ordinary curves lie all in the box, or none of them, on the stretch of a piece.
fn holds(
    curve: &Curve,
    limits: &Rectangle,
    inside: bool,
    (depth, index): (u32, u32),
    rng: &mut Rng,
) -> bool {
    let ordinary = Ordinary::some_inside(curve, rng);
    let between = 1 + rng.up_to(PARTS as usize - 2) as u32;
    [0, between, PARTS].iter().all(|part| {
        let (upper, lower) = (index * PARTS + part, PARTS << depth);
        let weights = Bernstein::at(curve.degree, &upper.into(), &lower.into());
        ordinary.iter().all(|ordinary| {
            let [r_low, r_high, x_low, x_high] = weights.load_beside(ordinary, limits);
            inside == (r_low.is_ge() && r_high.is_lt() && x_low.is_ge() && x_high.is_lt())
        })
    })
}

#[cfg(test)]
mod tests {
    use super::*;

    /// Resistances 0, 4 and reactances 0, 0: the right half goes from 2 to 4, the left one from 0 to 2.
    #[test]
    fn finds_a_verdict_that_is_not_that_of_the_loads() {
        let line = Curve::new(&[[0; 4], [4, 4, 0, 0]]);
        let holds = |limits, inside, piece| holds(&line, &limits, inside, piece, &mut Rng::new(5));
        assert!(holds([0, 5, 0, 1], true, (0, 0)));
        assert!(!holds([0, 4, 0, 1], true, (0, 0)));
        assert!(!holds([0, 5, -1, 0], true, (0, 0)));
        assert!(!holds([1, 5, 0, 1], true, (0, 0)));
        assert!(holds([0, 2, 0, 1], false, (1, 1)));
        assert!(!holds([0, 3, 0, 1], false, (1, 1)));
        assert!(!holds([2, 3, 0, 1], false, (1, 0)));
    }
}
