//! Times our evaluate, subdivide, evaluate_sixteenths, enclose and choose_setting beside plain Rust: one
//! process, the same inputs, rounds in turn. It prints the median time of a call on each side, and the
//! median and the middle half of the ratios, ours to plain; for evaluate and subdivide also the median ratio
//! of the limit, which is plain Rust's tests and copies alone, to plain; for choose_setting how many pieces a
//! walk looks at.
#![forbid(unsafe_code)]

mod calls;
mod lists;
mod plain;
mod plain_enclose;
mod plain_settings;
mod plain_sixteenths;

use calls::{enclose, AtSixteenth, Buffers, Input, Measured, Operation, Run};
use calls::{CHOOSE_SETTING, EVALUATE, PLAIN_LOAD, SIXTEENTHS, SUBDIVIDE, WITH_SPREAD};
use jusqani::{Curve, Rect, MAX_DEGREE, MAX_DEN, MAX_SETTINGS};
use lists::{lists, pieces, Kind, BUDGET, DEPTH};
use second::draw;
use second::rng::Rng;
use std::hint::black_box;
use std::ops::RangeInclusive;
use std::process::ExitCode;
use std::time::Instant;

const SEED: u64 = 8;
const INPUTS: usize = 256;
/// How often a round goes over all inputs, and how many rounds there are. Short rounds keep what else the
/// machine does out of most of them.
const TIMES: usize = 2;
const ROUNDS: usize = 2_001;
/// What the den of a parameter is drawn from: all that are accepted, or 16 alone.
const ANY_DEN: RangeInclusive<i64> = 1..=MAX_DEN as i64;
const DEN_16: RangeInclusive<i64> = 16..=16;
/// The seventeen places j/16, each on so many curves.
const SIXTEENTH_PLACES: usize = 17;
const SIXTEENTH_CURVES: usize = 32;
/// The rows of lists, with how many lists each has. A list takes up to some hundred microseconds, so that a
/// round has few of them; of those that are decided at the first look, more.
const LISTS: usize = 4;
const LISTED: [(&str, Kind, usize); 4] = [
    ("settings, last fits", Kind::LastFits, LISTS),
    ("settings, none fits", Kind::NoneFits, LISTS),
    ("settings, outside", Kind::StartsOutside, LISTS),
    ("settings, first look", Kind::FirstLook, 64),
];
/// A measurement takes a few nanoseconds, so that a round has more of them; and so many different ones that
/// the processor does not learn by heart which way each one branches.
const MEASURED: usize = 4_096;
const MEASURED_TIMES: usize = 2;
/// Loads are drawn up to this either way, and spreads from zero.
const LOAD_OHMS: f64 = 4_000.0;
const SPREAD_OHMS: f64 = 4.0;

fn main() -> ExitCode {
    match curves()
        .and_then(|()| sixteenths())
        .and_then(|()| measurements())
        .and_then(|()| settings())
    {
        Ok(()) => ExitCode::SUCCESS,
        Err(message) => {
            println!("FAILED: {message}");
            ExitCode::FAILURE
        }
    }
}

fn curves() -> Result<(), String> {
    let [any_den, den_16] = [ANY_DEN, DEN_16].map(inputs);
    println!(
        "degree {MAX_DEGREE}, {INPUTS} inputs, {ROUNDS} rounds of {TIMES} times all inputs; the results' \
         buffers are used again and not cleared"
    );
    println!("the limit is plain's input tests and copies alone, without the maps");
    side_by_side("evaluate", &EVALUATE, &any_den, TIMES)?;
    side_by_side("subdivide", &SUBDIVIDE, &any_den, TIMES)?;
    side_by_side("evaluate, den 16", &EVALUATE, &den_16, TIMES)?;
    side_by_side("subdivide, den 16", &SUBDIVIDE, &den_16, TIMES)
}

fn sixteenths() -> Result<(), String> {
    println!(
        "{SIXTEENTH_CURVES} curves of each degree at each of the {SIXTEENTH_PLACES} places j/16, {ROUNDS} \
         rounds of {TIMES} times all of a degree"
    );
    for degree in (1..=MAX_DEGREE).rev() {
        let inputs = at_sixteenths(&mut Rng::new(SEED), degree);
        let name = format!("sixteenths, degree {degree}");
        side_by_side(&name, &SIXTEENTHS, &inputs, TIMES)?;
    }
    Ok(())
}

fn measurements() -> Result<(), String> {
    let mut rng = Rng::new(SEED);
    let spread: Vec<_> = (0..MEASURED).map(|_| with_spread(&mut rng)).collect();
    let plain: Vec<_> = spread.iter().map(|[r, x, _]| [*r, *x]).collect();
    let rounds = format!("{ROUNDS} rounds of {MEASURED_TIMES} times all loads");
    println!("{MEASURED} measured loads with a spread, {rounds}");
    side_by_side(
        "enclose",
        &enclose::<WITH_SPREAD>(),
        &spread,
        MEASURED_TIMES,
    )?;
    println!("{MEASURED} plain measured loads, {rounds}");
    side_by_side("enclose", &enclose::<PLAIN_LOAD>(), &plain, MEASURED_TIMES)
}

fn settings() -> Result<(), String> {
    println!(
        "lists of {MAX_SETTINGS} settings for curves of degree {MAX_DEGREE}, depth {DEPTH}, budget {BUDGET}, \
         {ROUNDS} rounds of all lists once; all walks of a list are made"
    );
    for (name, kind, count) in LISTED {
        let inputs = lists(kind, count);
        let [search, plain] = pieces(&inputs);
        println!(
            "{count} lists; a walk of plain looks at {plain:.1} pieces, and of a search at {search:.1}"
        );
        side_by_side(name, &CHOOSE_SETTING, &inputs, 1)?;
    }
    Ok(())
}

/// The inputs of a row; the curves are the same ones, whatever the dens are.
fn inputs(dens: RangeInclusive<i64>) -> Vec<Input> {
    let mut rng = Rng::new(SEED);
    let summed = sums(MAX_DEGREE).take(INPUTS);
    summed.map(|sum| input(&mut rng, sum, &dens)).collect()
}

/// Sums of steps that leave room for so many more. They are drawn by themselves, so that the curves do not
/// depend on them.
fn sums(more: u32) -> impl Iterator<Item = u16> {
    let mut rng = Rng::new(SEED);
    let largest = u32::from(u16::MAX) - more;
    std::iter::repeat_with(move || rng.between(0, largest.into()) as u16)
}

/// An accepted curve of this degree with the sum 0, as the binding's users own it.
fn curve_of(rng: &mut Rng, degree: u32) -> Curve {
    let drawn = draw::curve(rng, degree as usize);
    let points = drawn.control_points().iter();
    let points = points.map(|point| Rect::from(point.map(|side| side as i32)));
    Curve::new(&points.collect::<Vec<_>>())
}

/// An accepted curve with this sum and an accepted parameter.
fn input(rng: &mut Rng, sum: u16, dens: &RangeInclusive<i64>) -> Input {
    let curve = curve_of(rng, MAX_DEGREE).with_sum(sum);
    let den = rng.between(*dens.start(), *dens.end());
    Input {
        curve,
        num: rng.between(0, den) as u32,
        den: den as u32,
    }
}

/// Accepted curves, each at the next place, so that all places come equally often.
fn at_sixteenths(rng: &mut Rng, degree: u32) -> Vec<AtSixteenth> {
    let places = (0..SIXTEENTH_PLACES as u32).cycle();
    let drawn = places.map(|j| AtSixteenth {
        curve: curve_of(rng, degree),
        j,
    });
    drawn.take(SIXTEENTH_PLACES * SIXTEENTH_CURVES).collect()
}

/// An accepted load with a spread, in ohms with random digits.
fn with_spread(rng: &mut Rng) -> Measured<WITH_SPREAD> {
    // The drawn 32 bits as a number from -1 to just below 1, in all the digits that the ohms have room for.
    let mut part = || f64::from(rng.draw() as i32) / 2_f64.powi(31);
    let (r, x, spread) = (part(), part(), part().abs());
    [LOAD_OHMS * r, LOAD_OHMS * x, SPREAD_OHMS * spread].map(|ohms| ohms as f32)
}

/// Whether both sides accept every input and give the same numbers and the same flag.
fn agree<I>(operation: &Operation<I>, inputs: &[I]) -> bool {
    let Operation { ours, plain, .. } = operation;
    inputs.iter().all(|input| {
        let mut buffers = Buffers::EMPTY;
        let answers = [ours, plain].map(|call| (call.run)(input, &mut buffers));
        answers == [0, 0] && (ours.result)(&buffers) == (plain.result)(&buffers)
    })
}

/// Whether a run refuses no input.
fn accepts<I>(run: Run<I>, inputs: &[I]) -> bool {
    let mut buffers = Buffers::EMPTY;
    inputs.iter().all(|input| run(input, &mut buffers) == 0)
}

/// Times one operation on both sides, and its limit where it has one, and prints the row.
fn side_by_side<I>(
    name: &str,
    operation: &Operation<I>,
    inputs: &[I],
    times: usize,
) -> Result<(), String> {
    if !agree(operation, inputs) {
        return Err(format!("{name}: the results differ"));
    }
    let Operation { ours, plain, limit } = operation;
    if limit.is_some_and(|limit| !accepts(limit, inputs)) {
        return Err(format!("{name}: the limit refuses an input"));
    }
    let runs: Vec<_> = [plain.run, ours.run].into_iter().chain(*limit).collect();
    println!("{name:<20} {}", row(&in_turn(&runs, inputs, times)));
    Ok(())
}

/// Each run's times, one for each round. The runs take turns in going first.
fn in_turn<I>(runs: &[Run<I>], inputs: &[I], times: usize) -> Vec<Vec<f64>> {
    let mut measured = vec![Vec::new(); runs.len()];
    for round in 0..ROUNDS {
        for turn in 0..runs.len() {
            let next = (round + turn) % runs.len();
            measured[next].push(timed(runs[next], inputs, times));
        }
    }
    measured
}

/// What is printed of the times of plain Rust, of ours and, where it is there, of the limit.
fn row(measured: &[Vec<f64>]) -> String {
    let to_plain = |times: &Vec<f64>| {
        let pairs = times.iter().zip(&measured[0]);
        quartiles(pairs.map(|(time, plain)| time / plain).collect())
    };
    let [plain, ours] = [0, 1].map(|side| shown(quartiles(measured[side].clone())[1]));
    let [low, ratio, high] = to_plain(&measured[1]);
    let both = format!(
        "plain {plain:>5} ns, ours {ours:>5} ns, ours/plain {ratio:.2} ({low:.2} to {high:.2})"
    );
    match measured.get(2).map(to_plain) {
        Some([_, limit, _]) => format!("{both}, limit/plain {limit:.2}"),
        None => both,
    }
}

/// Nanoseconds as they are printed: a short time with its tenths, which count there.
fn shown(nanoseconds: f64) -> String {
    let decimals = usize::from(nanoseconds < 50.0);
    format!("{nanoseconds:.decimals$}")
}

/// Nanoseconds for one call.
fn timed<I>(run: Run<I>, inputs: &[I], times: usize) -> f64 {
    let mut buffers = Buffers::EMPTY;
    let begun = Instant::now();
    for _ in 0..times {
        for input in inputs {
            black_box(run(black_box(input), black_box(&mut buffers)));
        }
    }
    begun.elapsed().as_nanos() as f64 / (times * inputs.len()) as f64
}

/// The lower quartile, the median and the upper quartile.
fn quartiles(mut times: Vec<f64>) -> [f64; 3] {
    times.sort_by(f64::total_cmp);
    [1, 2, 3].map(|quarter| times[(times.len() - 1) * quarter / 4])
}

#[cfg(test)]
mod tests {
    use super::*;
    use jusqani::{CURVE_LENGTH, MAX_SIDE, PLACES};

    /// The middle of a curve that is one point, with the largest sum that leaves room for a cut.
    fn half() -> Input {
        Input {
            curve: Curve::new(&[Rect::from([7; 4]); PLACES]).with_sum(65_527),
            num: 1,
            den: 2,
        }
    }

    #[test]
    fn times_calls_that_agree() {
        let mut rng = Rng::new(SEED);
        let mut inputs: Vec<Input> = [ANY_DEN, DEN_16].into_iter().flat_map(inputs).collect();
        // One whose flag is lit between 0 and 1, which is rare among those drawn.
        inputs.push(half());
        for operation in [EVALUATE, SUBDIVIDE] {
            assert!(agree(&operation, &inputs) && accepts(operation.limit.unwrap(), &inputs));
        }
        for degree in 1..=MAX_DEGREE {
            assert!(agree(&SIXTEENTHS, &at_sixteenths(&mut rng, degree)));
        }
        let spread: Vec<_> = (0..MEASURED).map(|_| with_spread(&mut rng)).collect();
        let plain: Vec<_> = spread.iter().map(|[r, x, _]| [*r, *x]).collect();
        assert!(agree(&enclose::<WITH_SPREAD>(), &spread));
        assert!(agree(&enclose::<PLAIN_LOAD>(), &plain));
        for (_, kind, _) in LISTED {
            assert!(agree(&CHOOSE_SETTING, &lists(kind, LISTS)));
        }
    }

    /// The rows at any den and at den 16 differ in the parameters alone.
    #[test]
    fn draws_the_same_curves_at_den_16() {
        let [any_den, den_16] = [ANY_DEN, DEN_16].map(inputs);
        let mut pairs = any_den.iter().zip(&den_16);
        assert!(pairs.all(|(any, at_16)| any.curve == at_16.curve && at_16.den == 16));
        assert!((0..=16).all(|num| den_16.iter().any(|input| input.num == num)));
    }

    /// The limit makes every test that plain Rust makes, also those of the last sides, and answers alike.
    #[test]
    fn the_limit_refuses_as_plain_does() {
        let with_last = |last| {
            let mut input = half();
            input.curve.numbers[CURVE_LENGTH - 1] = last;
            input
        };
        let refused = [
            (2, with_last(MAX_SIDE + 1)),
            (3, with_last(6)),
            (4, Input { den: 0, ..half() }),
            (5, Input { num: 3, ..half() }),
        ];
        for operation in [EVALUATE, SUBDIVIDE] {
            for (number, input) in &refused {
                assert_eq!(plain_and_limit(&operation, input), [*number; 2]);
            }
        }
    }

    fn plain_and_limit(operation: &Operation<Input>, input: &Input) -> [u64; 2] {
        let runs = [operation.plain.run, operation.limit.unwrap()];
        runs.map(|run| answer(run, input))
    }

    fn answer(run: Run<Input>, input: &Input) -> u64 {
        let mut buffers = Buffers::EMPTY;
        run(input, &mut buffers)
    }

    /// A cut's sum is tested last and by all alike, and a reading's is not.
    #[test]
    fn refuses_a_sum_as_ours_does() {
        let full = Input {
            curve: half().curve.with_sum(65_528),
            ..half()
        };
        assert_eq!(plain_and_limit(&SUBDIVIDE, &full), [17; 2]);
        assert_eq!(answer(SUBDIVIDE.ours.run, &full), 17);
        let past_the_end = Input { num: 3, ..full };
        assert_eq!(plain_and_limit(&SUBDIVIDE, &past_the_end), [5; 2]);
        assert_eq!(answer(SUBDIVIDE.ours.run, &past_the_end), 5);
        assert!(agree(&SUBDIVIDE, &[half()]) && agree(&EVALUATE, &[half(), full]));
    }

    /// The sums are various, and leave the room that they are asked to.
    #[test]
    fn draws_sums_with_room() {
        let drawn: Vec<u16> = sums(MAX_DEGREE).take(INPUTS).collect();
        assert!(drawn.iter().all(|sum| *sum <= 65_527));
        assert!((0..4).all(|k| drawn.iter().any(|sum| sum / 16_384 == k)));
        assert!(sums(u16::MAX.into()).take(INPUTS).all(|sum| sum == 0));
    }

    /// The median ratio is the one of the rounds, and a row without a limit ends before it.
    #[test]
    fn shows_the_times_of_a_row() {
        let plain = vec![500.0, 40.0, 200.0, 250.0, 100.0];
        let measured = [plain, vec![50.0; 5], vec![20.0; 5]];
        let both = "plain   200 ns, ours    50 ns, ours/plain 0.25 (0.20 to 0.50)";
        assert_eq!(row(&measured[..2]), both);
        assert_eq!(row(&measured), format!("{both}, limit/plain 0.10"));
    }

    /// Tenths for a call of a few nanoseconds, none for one of hundreds.
    #[test]
    fn shows_the_tenths_of_short_times() {
        assert_eq!([7.84, 319.6].map(shown), ["7.8", "320"]);
    }

    #[test]
    fn finds_the_quartiles() {
        let times = (0..=8).rev().map(f64::from).collect();
        assert_eq!(quartiles(times), [2.0, 4.0, 6.0]);
    }
}
