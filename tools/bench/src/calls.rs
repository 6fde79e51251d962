//! The calls that are timed, each on the same input and with buffers of its own, and how the numbers and the
//! flag of its result are read off its buffers. Only the calls are timed. The limit has no result to read.

use crate::lists::{BUDGET, DEPTH};
use crate::{plain, plain_enclose, plain_settings, plain_sixteenths};
use jusqani::{raw, Curve, Setting, CHOICE_LENGTH, CURVE_LENGTH, PLACES, RECT_LENGTH};

/// The sides of a curve of the highest degree.
pub const CURVE_SIDES: usize = RECT_LENGTH * PLACES;

/// What both sides are given to evaluate or subdivide: a curve of the highest degree and a parameter.
pub struct Input {
    pub curve: Curve,
    pub num: u32,
    pub den: u32,
}

/// What both sides are given to evaluate at a sixteenth: a curve and j.
pub struct AtSixteenth {
    pub curve: Curve,
    pub j: u32,
}

/// What both sides are given to choose a setting: a curve of the highest degree and a list.
pub struct Listed {
    pub curve: Curve,
    pub settings: Vec<Setting>,
}

/// A curve as plain Rust is given it: its degree, its sum and its sides. A degree that is lacking or below 0 becomes
/// another that is refused, and a sum that is lacking or out of range the largest.
pub fn parts(curve: &[i32]) -> (u32, u16, &[i32]) {
    let sum = curve.get(1).and_then(|sum| u16::try_from(*sum).ok());
    (
        curve.first().map_or(0, |degree| *degree as u32),
        sum.unwrap_or(u16::MAX),
        curve.get(2..).unwrap_or_default(),
    )
}

/// The two pieces of a curve of the highest degree, each its degree, its sum, then its sides.
pub type Pieces = [[i32; CURVE_LENGTH]; 2];

/// What both sides are given to enclose: a resistance and a reactance in ohms, with or without a spread.
pub type Measured<const NUMBERS: usize> = [f32; NUMBERS];
pub const PLAIN_LOAD: usize = 2;
pub const WITH_SPREAD: usize = 3;

/// The buffers for the results, as include/jusqani.h has them; plain Rust has ohms at a sixteenth alone. Each
/// side has a flag of its own, which tells whether the result is exact, or what was found. The limit stores
/// where plain Rust does.
pub struct Buffers {
    load: [i32; RECT_LENGTH],
    ohms: [f32; RECT_LENGTH],
    left: [i32; CURVE_LENGTH],
    right: [i32; CURVE_LENGTH],
    choice: [u32; CHOICE_LENGTH],
    flag: u32,
    plain_load: [i32; RECT_LENGTH],
    plain_ohms: [f32; RECT_LENGTH],
    plain_pieces: Pieces,
    plain_choice: [u32; CHOICE_LENGTH],
    plain_flag: u32,
}

/// What a flag holds before a call.
const NO_FLAG: u32 = u32::MAX;

impl Buffers {
    pub const EMPTY: Buffers = Buffers {
        load: [0; RECT_LENGTH],
        ohms: [0.0; RECT_LENGTH],
        left: [0; CURVE_LENGTH],
        right: [0; CURVE_LENGTH],
        choice: [0; CHOICE_LENGTH],
        flag: NO_FLAG,
        plain_load: [0; RECT_LENGTH],
        plain_ohms: [0.0; RECT_LENGTH],
        plain_pieces: [[0; CURVE_LENGTH]; 2],
        plain_choice: [0; CHOICE_LENGTH],
        plain_flag: NO_FLAG,
    };
}

/// What is timed; it answers 0 where it is not refused.
pub type Run<I> = fn(&I, &mut Buffers) -> u64;

/// A call, and the numbers and the flag that it left.
pub struct Call<I> {
    pub run: Run<I>,
    pub result: fn(&Buffers) -> (Vec<i32>, u32),
}

/// An operation by both sides, and its limit where that is timed too: plain Rust's tests and copies alone.
pub struct Operation<I> {
    pub ours: Call<I>,
    pub plain: Call<I>,
    pub limit: Option<Run<I>>,
}

pub const EVALUATE: Operation<Input> = Operation {
    ours: Call {
        run: |input, out| {
            let (num, den) = (input.num, input.den);
            let (load, ohms, exact) = (&mut out.load, &mut out.ohms, &mut out.flag);
            raw::evaluate(&input.curve.numbers, num, den, load, ohms, exact)
        },
        result: |out| (out.load.to_vec(), out.flag),
    },
    plain: Call {
        run: |input, out| {
            let (_, _, sides) = parts(&input.curve.numbers);
            let (load, exact) = (&mut out.plain_load, &mut out.plain_flag);
            plain::evaluate(sides, input.num, input.den, load, exact).into()
        },
        result: |out| (out.plain_load.to_vec(), out.plain_flag),
    },
    limit: Some(|input, out| {
        let (_, _, sides) = parts(&input.curve.numbers);
        let (load, exact) = (&mut out.plain_load, &mut out.plain_flag);
        plain::evaluate_limit(sides, input.num, input.den, load, exact).into()
    }),
};

pub const SIXTEENTHS: Operation<AtSixteenth> = Operation {
    ours: Call {
        run: |AtSixteenth { curve, j }, out| {
            let (load, ohms, exact) = (&mut out.load, &mut out.ohms, &mut out.flag);
            raw::evaluate_sixteenths(&curve.numbers, *j, load, ohms, exact)
        },
        result: |out| (with_ohms(&out.load, &out.ohms), out.flag),
    },
    plain: Call {
        run: |AtSixteenth { curve, j }, out| {
            let (degree, _, sides) = parts(&curve.numbers);
            let (load, ohms, exact) = (
                &mut out.plain_load,
                &mut out.plain_ohms,
                &mut out.plain_flag,
            );
            plain_sixteenths::evaluate_sixteenths(degree, sides, *j, load, ohms, exact)
        },
        result: |out| (with_ohms(&out.plain_load, &out.plain_ohms), out.plain_flag),
    },
    limit: None,
};

/// A load's sides, and behind them the bits of the ohms.
fn with_ohms(load: &[i32], ohms: &[f32]) -> Vec<i32> {
    let bits = ohms.iter().map(|ohms| ohms.to_bits() as i32);
    load.iter().copied().chain(bits).collect()
}

pub const SUBDIVIDE: Operation<Input> = Operation {
    ours: Call {
        run: |input, out| {
            let (num, den) = (input.num, input.den);
            let (left, right, exact) = (&mut out.left, &mut out.right, &mut out.flag);
            raw::subdivide(&input.curve.numbers, num, den, left, right, exact)
        },
        result: |out| ([out.left, out.right].concat(), out.flag),
    },
    plain: Call {
        run: |input, out| {
            let (_, sum, sides) = parts(&input.curve.numbers);
            let (pieces, exact) = (&mut out.plain_pieces, &mut out.plain_flag);
            plain::subdivide(sum, sides, input.num, input.den, pieces, exact).into()
        },
        result: |out| (out.plain_pieces.concat(), out.plain_flag),
    },
    limit: Some(|input, out| {
        let (_, sum, sides) = parts(&input.curve.numbers);
        let (pieces, exact) = (&mut out.plain_pieces, &mut out.plain_flag);
        plain::subdivide_limit(sum, sides, input.num, input.den, pieces, exact).into()
    }),
};

pub const CHOOSE_SETTING: Operation<Listed> = Operation {
    ours: Call {
        run: |Listed { curve, settings }, out| {
            raw::choose_setting(&curve.numbers, settings, DEPTH, BUDGET, &mut out.choice)
        },
        result: |out| chosen(out.choice),
    },
    plain: Call {
        run: |Listed { curve, settings }, out| {
            let (degree, sum, sides) = parts(&curve.numbers);
            let choice = &mut out.plain_choice;
            plain_settings::choose_setting(degree, sum, sides, settings, DEPTH, BUDGET, choice)
        },
        result: |out| chosen(out.plain_choice),
    },
    limit: None,
};

/// A choice's index and setting number, and whether one fits.
fn chosen([found, index, number]: [u32; CHOICE_LENGTH]) -> (Vec<i32>, u32) {
    (vec![index as i32, number as i32], found)
}

pub const fn enclose<const NUMBERS: usize>() -> Operation<Measured<NUMBERS>> {
    Operation {
        ours: Call {
            run: |ohms, out| raw::enclose(ohms, &mut out.load, &mut out.flag),
            result: |out| (out.load.to_vec(), out.flag),
        },
        plain: Call {
            run: |ohms, out| plain_enclose::enclose(ohms, &mut out.plain_load, &mut out.plain_flag),
            result: |out| (out.plain_load.to_vec(), out.plain_flag),
        },
        limit: None,
    }
}
