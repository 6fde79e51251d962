//! How one question of each call is drawn, mostly about the corners.

use crate::ask::{Ask, Given, Ohms};
use crate::card::card_of;
use crate::corners::*;
use crate::model::{
    ohm_bits, ways, Curve, Parameter, Rectangle, MAX_DEGREE, MAX_DEN, MAX_SIDE, SIXTEENTHS,
};
use crate::rng::Rng;
use crate::search::{Effort, MAX_BUDGET, MAX_DEPTH, MAX_RECORDS};
use jusqani::Setting;

pub fn evaluate(rng: &mut Rng) -> Ask {
    let (curve, t) = curve_and_parameter(rng);
    Ask::Evaluate { curve, t }
}

pub fn subdivide(rng: &mut Rng) -> Ask {
    let (curve, t) = curve_and_parameter(rng);
    Ask::Subdivide { curve, t }
}

pub fn evaluate_sixteenths(rng: &mut Rng) -> Ask {
    let j = match rng.below(16) {
        0 => rng.pick(&FAR_SIXTEENTHS),
        _ => rng.up_to(SIXTEENTHS as usize) as u32,
    };
    let degree = degree(rng);
    let drawn = match rng.below(4) {
        0 => exact_curve(rng, degree, 16 >> j.trailing_zeros().min(4)),
        _ => curve(rng, degree),
    };
    let curve = given(rng, drawn, 0);
    Ask::EvaluateSixteenths { curve, j }
}

pub fn elevate(rng: &mut Rng) -> Ask {
    let degree = degree(rng);
    let drawn = match rng.below(3) {
        0 => exact_curve(rng, degree, degree as i64 + 1),
        _ => curve(rng, degree),
    };
    let curve = given(rng, drawn, 1);
    Ask::Elevate { curve }
}

pub fn bounds(rng: &mut Rng) -> Ask {
    let curve = any_given(rng, 0);
    Ask::Bounds { curve }
}

pub fn write_card(rng: &mut Rng) -> Ask {
    let curve = any_given(rng, 0);
    Ask::WriteCard { curve }
}

pub fn search(rng: &mut Rng) -> Ask {
    let (curve, effort) = walk(rng, MAX_DEPTH);
    let bounds = bounds_of(&curve);
    let mut limits = match rng.below(16) {
        0 => rng.pick(&FAR_BOXES),
        _ => limits(rng, &bounds),
    }
    .map(|side| side as i32)
    .to_vec();
    match rng.below(32) {
        0 => limits.truncate(rng.up_to(3)),
        1 | 2 => limits.push(rng.draw() as i32),
        _ => {}
    }
    Ask::Search {
        curve,
        limits,
        effort,
    }
}

pub fn choose_setting(rng: &mut Rng) -> Ask {
    let (curve, effort) = walk(rng, 6);
    let bounds = bounds_of(&curve);
    let length = match rng.below(32) {
        0 | 1 => rng.pick(&FAR_LISTS),
        2 => 1 + rng.up_to(MAX_RECORDS - 1),
        _ => rng.pick(&LISTS),
    };
    let fitting = rng.one_in(2);
    let mut setting = |k: usize| {
        let mut limits = limits(rng, &bounds).map(|side| side as i32);
        if fitting && k + 1 < length {
            // Before the last record boxes are beside the curve, so that an index far behind is chosen too.
            limits = beside(rng, &bounds);
        }
        Setting {
            limits: limits.into(),
            number: rng.draw() as u16,
        }
    };
    let mut settings: Vec<Setting> = match length > MAX_RECORDS {
        true => vec![setting(0); length],
        false => (0..length).map(setting).collect(),
    };
    if length > 0 && rng.one_in(12) {
        let record = rng.up_to(length - 1);
        settings[record].limits = rng.pick(&FAR_BOXES).map(|side| side as i32).into();
    }
    Ask::ChooseSetting {
        curve,
        settings,
        effort,
    }
}

pub fn enclose(rng: &mut Rng) -> Ask {
    let mut numbers = vec![load(rng), load(rng), spread(rng)];
    if rng.one_in(4) {
        // A side that the spread brings to its limit, one step less or one more.
        let most = 1 << rng.up_to(24);
        let spread = rng.between(1, most);
        let side = MAX_SIDE + rng.between(-1, 1) - spread;
        numbers[rng.up_to(1)] = ohm_bits(rng.pick(&[-1, 1]) * side);
        numbers[2] = ohm_bits(spread);
        if rng.one_in(2) {
            numbers[rng.up_to(1)] = ohm_bits(rng.between(-1_000, 1_000));
        }
    }
    numbers.resize(rng.pick(&MEASURED), load(rng));
    let ohms = Ohms::of(&numbers);
    Ask::Enclose { ohms }
}

pub fn read_card(rng: &mut Rng) -> Ask {
    let card = card(rng);
    Ask::ReadCard { card }
}

pub fn panel(rng: &mut Rng) -> Ask {
    let (card, t) = (card(rng), parameter(rng));
    Ask::Panel { card, t }
}

fn degree(rng: &mut Rng) -> usize {
    1 + rng.up_to(MAX_DEGREE - 1)
}

/// An accepted curve.
pub fn curve(rng: &mut Rng, degree: usize) -> Curve {
    let style = rng.below(7);
    let mut curve = Curve::ZERO;
    curve.degree = degree;
    for point in &mut curve.points[..=degree] {
        let (resistance, reactance) = (sides(rng, style), sides(rng, style));
        *point = [resistance.0, resistance.1, reactance.0, reactance.1];
    }
    curve
}

/// A low and a high.
fn sides(rng: &mut Rng, style: u64) -> (i64, i64) {
    let width = |low: i64, width: i64| (low, (low + width).min(MAX_SIDE));
    let sorted = |a: i64, b: i64| (a.min(b), a.max(b));
    let mut any = || rng.between(-MAX_SIDE, MAX_SIDE);
    match style {
        // A few steps, where every rounding shows.
        0 => width(rng.between(-4, 4), rng.between(0, 3)),
        // Values: low equal to high.
        1 => width(rng.between(-9, 9), 0),
        2 => width(any(), 0),
        // A measurement within its margin.
        3 => width(rng.between(-500_000, 500_000), rng.between(0, 3_000)),
        4 => sorted(any(), any()),
        _ => sorted(rng.pick(&SIDES), rng.pick(&SIDES)),
    }
}

/// A curve as a call is lent it, with a sum to which so many steps are added: one in twelve is spoilt, some have
/// another degree, and now and then there are too few numbers or too many.
pub fn given(rng: &mut Rng, mut curve: Curve, more: usize) -> Given {
    if rng.one_in(12) {
        spoil(rng, &mut curve, &FAR_SIDES);
    }
    let mut given = Given::of(&curve);
    given.0[1] = sum(rng, more);
    if rng.one_in(64) {
        given.0[0] = rng.pick(&FAR_DEGREES);
    }
    match rng.below(32) {
        0 => given.0.truncate(rng.up_to(given.0.len() - 1)),
        1 => given.0.truncate(rng.up_to(2)),
        2 => drop(given.0.pop()),
        3..=9 => (0..=rng.up_to(5)).for_each(|_| given.0.push(rng.draw() as i32)),
        _ => {}
    }
    given
}

/// A curve that is cut so many times in turn.
fn any_given(rng: &mut Rng, cuts: usize) -> Given {
    let degree = degree(rng);
    let drawn = curve(rng, degree);
    given(rng, drawn, degree * cuts)
}

/// Puts sides out of range, or a low above its high, in one to three points.
fn spoil(rng: &mut Rng, curve: &mut Curve, far: &[i64]) {
    for _ in 0..rng.between(1, 3) {
        let k = rng.up_to(curve.degree);
        let low = rng.pick(&[0, 2]);
        let high = curve.points[k][low + 1];
        if rng.one_in(2) {
            curve.points[k][low] = (high + rng.between(1, 3)).min(MAX_SIDE);
        } else {
            curve.points[k][low + rng.up_to(1)] = rng.pick(far);
        }
    }
}

/// A curve and a parameter, one in four such that no stage rounds.
fn curve_and_parameter(rng: &mut Rng) -> (Given, Parameter) {
    let degree = degree(rng);
    if !rng.one_in(4) {
        let drawn = curve(rng, degree);
        return (given(rng, drawn, degree), parameter(rng));
    }
    let den = rng.pick(&EXACT_DENS);
    let drawn = exact_curve(rng, degree, den);
    let (num, den) = (rng.between(0, den) as u32, den as u32);
    let largest = MAX_DEN / den;
    let multiple = rng.pick(&[1, 2, largest]).min(largest);
    let (num, den) = (multiple * num, multiple * den);
    (given(rng, drawn, degree), Parameter { num, den })
}

/// A parameter, one in twelve of them refused.
pub fn parameter(rng: &mut Rng) -> Parameter {
    let den = rng.between(1, MAX_DEN.into());
    let any = (rng.between(0, den) as u32, den as u32);
    let (num, den) = match rng.below(12) {
        0 => rng.pick(&FAR_PARAMETERS),
        1..=5 => rng.pick(&PARAMETERS),
        _ => any,
    };
    Parameter { num, den }
}

/// An accepted curve that no stage at a fraction with this den rounds; one in three has sides moved.
fn exact_curve(rng: &mut Rng, degree: usize, den: i64) -> Curve {
    let mut curve = Curve::ZERO;
    curve.degree = degree;
    for low in [0, 2] {
        let lows = exact_values(rng, degree, den, true);
        let widths = exact_values(rng, degree, den, false);
        for k in 0..=degree {
            curve.points[k][low] = lows[k];
            curve.points[k][low + 1] = lows[k] + widths[k];
        }
    }
    moved(rng, curve)
}

/// Values within half the range whose differences of order j are multiples of the den to the power j, so that in
/// every stage neighbours differ by a multiple of it. They may be below 0 or not.
fn exact_values(rng: &mut Rng, degree: usize, den: i64, signed: bool) -> Vec<i64> {
    let (mut power, most) = (1, rng.pick(&[1, 9, MAX_SIDE]));
    let mut differences: Vec<i64> = Vec::with_capacity(degree + 1);
    for j in 0..=degree {
        let room = (MAX_SIDE / 2 / (degree as i64 + 1) / ways(degree, j) / power).min(most);
        let least = if signed { -room } else { 0 };
        differences.push(power * rng.between(least, room));
        // Past the largest side a power has no room, whatever it is.
        power = (power * den).min(MAX_SIDE);
    }
    let mut next = || {
        let value = differences[0];
        (0..degree).for_each(|j| differences[j] += differences[j + 1]);
        value
    };
    (0..=degree).map(|_| next()).collect()
}

/// Moves, in one curve of three, some sides outward by a few steps.
fn moved(rng: &mut Rng, mut curve: Curve) -> Curve {
    if rng.one_in(3) {
        for _ in 0..rng.between(1, 3) {
            let (k, side) = (rng.up_to(curve.degree), rng.up_to(3));
            let outward = if side % 2 == 0 { -1 } else { 1 };
            let to = curve.points[k][side] + outward * rng.between(1, 3);
            curve.points[k][side] = to.clamp(-MAX_SIDE, MAX_SIDE);
        }
    }
    curve
}

/// A curve with a depth and a budget, and a sum that fits them or just does not. To save time few are deep.
fn walk(rng: &mut Rng, deepest: u32) -> (Given, Effort) {
    let depth = match rng.below(200) {
        0..=9 => rng.pick(&FAR_DEPTHS),
        10 => deepest,
        11..=19 => rng.up_to(deepest as usize) as u32,
        _ => rng.up_to(4) as u32,
    };
    let budget = match rng.below(16) {
        0 => rng.pick(&FAR_BUDGETS),
        1..=5 => rng.pick(&BUDGETS),
        6 => rng.between(1, MAX_BUDGET.into()) as u32,
        _ => 500,
    };
    let curve = any_given(rng, depth.min(MAX_DEPTH) as usize);
    (curve, Effort { depth, budget })
}

/// The bounds of a curve, or any where it has none.
fn bounds_of(curve: &Given) -> Rectangle {
    curve.curve().bounds().unwrap_or([-9, 9, -9, 9])
}

/// A box near the bounds of a curve, so that every verdict comes; few are empty.
fn limits(rng: &mut Rng, bounds: &Rectangle) -> Rectangle {
    let style = rng.below(8);
    let [r_low, r_high] = side_limits(rng, style, bounds[0], bounds[1]);
    let [x_low, x_high] = side_limits(rng, style, bounds[2], bounds[3]);
    [r_low, r_high, x_low, x_high]
}

/// A low and a high limit, in range, for a coordinate that goes from low to high.
fn side_limits(rng: &mut Rng, style: u64, low: i64, high: i64) -> [i64; 2] {
    let width = high - low;
    let [from, to] = match style {
        // As far as the curve or farther; a step more at the high end, where the curve still fits.
        0 | 1 => {
            let grown = rng.pick(&[0, 0, 1, 1_000]);
            [low - grown, high + grown + rng.between(0, 1)]
        }
        // Small, about a point of the bounds.
        2 => {
            let point = rng.between(low, high);
            [point, point + width / 8]
        }
        // Beside the bounds, touching them or a step away; or just holding them.
        3 => {
            let (away, wide) = (rng.between(0, 1), rng.pick(&[1, 1_000]));
            rng.pick(&[
                [high + away, high + away + wide],
                [low - away - wide, low - away],
                [low, high + 1],
            ])
        }
        // Narrower at one end or both, or not at all.
        _ => {
            let mut part = || width / rng.pick(&[2, 3, 8, 64, 1 << 40, 1 << 40]);
            [low + part(), high - part()]
        }
    };
    let from = from.clamp(-MAX_SIDE, MAX_SIDE - 1);
    let least = if rng.one_in(64) { from } else { from + 1 };
    [from, to.clamp(least, MAX_SIDE)]
}

/// A box beside the bounds, where there is room for one.
fn beside(rng: &mut Rng, bounds: &Rectangle) -> [i32; 4] {
    let mut limits = [-MAX_SIDE, MAX_SIDE, -MAX_SIDE, MAX_SIDE];
    let low = rng.pick(&[0, 2]);
    limits[low] = bounds[low + 1].min(MAX_SIDE - 1);
    limits.map(|side| side as i32)
}

/// A card: sound, with a side too far or crossed, damaged once or twice, or no card at all.
fn card(rng: &mut Rng) -> Vec<u8> {
    let degree = degree(rng);
    let mut drawn = curve(rng, degree);
    if rng.one_in(6) {
        spoil(rng, &mut drawn, &FAR_COLUMNS);
    }
    let mut card = card_of(&drawn);
    match rng.below(13) {
        0..=5 => {}
        6 => put_column(rng, &mut card),
        7 => put_degree(rng, &mut card),
        8..=10 => damage(rng, &mut card),
        11 => (0..2).for_each(|_| damage(rng, &mut card)),
        _ => card = (0..rng.below(450)).map(|_| byte(rng)).collect(),
    }
    card
}
