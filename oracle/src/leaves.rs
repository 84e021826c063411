//! The functions of math/ as functions on words, so that one loop makes vectors of them all and one
//! compares them all.

use crate::contours::two_to;
use crate::math::scalar;
use crate::math::{Vector2, cross, dot};
use crate::numbers::Random;
use crate::roots;
use crate::stand_ins::{NO_SQUARE, is_stand_in};
use std::hint::black_box;
use std::ops::Range;

pub type Inputs = [u64; 5];
pub type Outputs = [u64; 2];

/// What a word holds.
#[derive(Clone, Copy, PartialEq)]
pub enum Word {
    /// A double's bits.
    F,
    /// A bool, 0 or 1.
    B,
    /// An i32, widened to 64 bits with its sign.
    I,
    /// A bit pattern, compared as a number also where it is a NaN's.
    P,
}

use Word::*;

pub struct Leaf {
    pub name: &'static str,
    pub inputs: &'static [Word],
    pub outputs: &'static [Word],
    pub reference: fn(&Inputs) -> Outputs,
    /// Whether Rust leaves the answer open or panics.
    pub open: fn(&Inputs) -> bool,
}

impl Leaf {
    pub fn random_inputs(&self, r: &mut Random) -> Inputs {
        let mut inputs = [0; 5];
        for (i, kind) in self.inputs.iter().enumerate() {
            inputs[i] = match kind {
                F | P => r.double().to_bits(),
                B | I => r.below(2),
            };
        }
        // Equal arguments and arguments of like size are rare at random.
        if r.below(4) == 0 && self.inputs.len() > 1 && self.inputs[1] == F {
            inputs[1] = inputs[0];
        }
        if r.below(4) == 0 && self.inputs.len() > 2 && self.inputs[2] == F {
            inputs[2] = inputs[0] ^ (r.below(2) << 63);
        }
        if r.below(4) == 0 && self.inputs.len() > 3 && self.inputs[3] == F {
            inputs[3] = inputs[1] ^ (r.below(2) << 63);
        }
        inputs
    }

    /// The reference's answer, with one pattern for every NaN.
    pub fn answer(&self, inputs: &Inputs) -> Outputs {
        let mut outputs = (self.reference)(inputs);
        for (i, kind) in self.outputs.iter().enumerate() {
            if *kind == F {
                outputs[i] = one_nan(outputs[i]);
            }
        }
        outputs
    }

    /// The words of a record that are the answer. Where there is one, the last word is 0 and not compared.
    pub fn answer_words(&self) -> Range<usize> {
        6..6 + self.outputs.len()
    }
}

fn f(i: &Inputs, at: usize) -> f64 {
    f64::from_bits(i[at])
}

fn v(i: &Inputs, at: usize) -> Vector2 {
    Vector2::new(f(i, at), f(i, at + 1))
}

fn b(i: &Inputs, at: usize) -> bool {
    i[at] != 0
}

fn of_f(x: f64) -> Outputs {
    [x.to_bits(), 0]
}

fn of_i(x: i32) -> Outputs {
    [x as i64 as u64, 0]
}

fn of_b(x: bool) -> Outputs {
    [x as u64, 0]
}

fn of_v(x: Vector2) -> Outputs {
    [x.x.to_bits(), x.y.to_bits()]
}

fn never(_: &Inputs) -> bool {
    false
}

/// `min` and `max` leave the sign open where both zeros are among the arguments.
fn two_zeros(i: &Inputs) -> bool {
    let zeros = &i[..3];
    zeros.contains(&0) && zeros.contains(&(1 << 63))
}

/// `clamp` panics where the bounds are reversed or one is a NaN.
fn bad_bounds(i: &Inputs) -> bool {
    !(f(i, 1) <= f(i, 2))
}

pub const NAN: u64 = 0x7FF8_0000_0000_0000;

/// A pattern, every NaN's replaced by one. The bits are looked at behind a black box: where it sees that
/// they are a double's, the compiler may leave the NaN that is there.
pub fn one_nan(bits: u64) -> u64 {
    let bits = black_box(bits);
    let is_nan = bits << 1 > f64::INFINITY.to_bits() << 1;
    if is_nan { NAN } else { bits }
}

/// The hardware's root, with the one NaN of SCOPE, leaf 1.
pub fn root_of_pattern(bits: u64) -> u64 {
    one_nan(f64::from_bits(bits).sqrt().to_bits())
}

const FF: &[Word] = &[F, F];
const FFF: &[Word] = &[F, F, F];
const FFFF: &[Word] = &[F, F, F, F];

macro_rules! leaf {
    ($name:expr, $inputs:expr, $outputs:expr, $reference:expr) => {
        leaf!($name, $inputs, $outputs, $reference, never)
    };
    ($name:expr, $inputs:expr, $outputs:expr, $reference:expr, $open:expr) => {
        Leaf { name: $name, inputs: $inputs, outputs: $outputs, reference: $reference, open: $open }
    };
}

/// In this order they have their numbers in the vectors.
pub const LEAVES: [Leaf; 29] = [
    leaf!("sqrt_bits", &[P], &[P], |i| [root_of_pattern(i[0]), 0]),
    leaf!("sqrt", &[F], &[F], |i| of_f(f(i, 0).sqrt())),
    leaf!("median", FFF, &[F], |i| of_f(scalar::median(f(i, 0), f(i, 1), f(i, 2))), two_zeros),
    leaf!("mix", FFF, &[F], |i| of_f(scalar::mix(f(i, 0), f(i, 1), f(i, 2)))),
    leaf!("clamp01", &[F], &[F], |i| of_f(scalar::clamp01(f(i, 0)))),
    leaf!("clamp", FFF, &[F], |i| of_f(scalar::clamp(f(i, 0), f(i, 1), f(i, 2))), bad_bounds),
    leaf!("sign", &[F], &[I], |i| of_i(scalar::sign(f(i, 0)))),
    leaf!("non_zero_sign", &[F], &[I], |i| of_i(scalar::non_zero_sign(f(i, 0)))),
    leaf!("zero", &[], FF, |_| of_v(Vector2::ZERO)),
    leaf!("new", FF, FF, |i| of_v(v(i, 0))),
    leaf!("splat", &[F], FF, |i| of_v(Vector2::splat(f(i, 0)))),
    leaf!("squared_length", FF, &[F], |i| of_f(v(i, 0).squared_length())),
    leaf!("length", FF, &[F], |i| of_f(v(i, 0).length())),
    leaf!("normalize", &[F, F, B], FF, |i| of_v(v(i, 0).normalize(b(i, 2)))),
    leaf!("orthogonal", &[F, F, B], FF, |i| of_v(v(i, 0).orthogonal(b(i, 2)))),
    leaf!("orthonormal", &[F, F, B, B], FF, |i| of_v(v(i, 0).orthonormal(b(i, 2), b(i, 3)))),
    leaf!("is_nonzero", FF, &[B], |i| of_b(v(i, 0).is_nonzero())),
    leaf!("eq", FFFF, &[B], |i| of_b(v(i, 0) == v(i, 2))),
    leaf!("dot", FFFF, &[F], |i| of_f(dot(v(i, 0), v(i, 2)))),
    leaf!("cross", FFFF, &[F], |i| of_f(cross(v(i, 0), v(i, 2)))),
    leaf!("add", FFFF, FF, |i| of_v(v(i, 0) + v(i, 2))),
    leaf!("sub", FFFF, FF, |i| of_v(v(i, 0) - v(i, 2))),
    leaf!("neg", FF, FF, |i| of_v(-v(i, 0))),
    leaf!("mul", FFFF, FF, |i| of_v(v(i, 0) * v(i, 2))),
    leaf!("div", FFFF, FF, |i| of_v(v(i, 0) / v(i, 2))),
    leaf!("mul_scalar", FFF, FF, |i| of_v(v(i, 0) * f(i, 2))),
    leaf!("div_scalar", FFF, FF, |i| of_v(v(i, 0) / f(i, 2))),
    leaf!("scale", FFF, FF, |i| of_v(f(i, 2) * v(i, 0))),
    leaf!("stand_in", &[F, F, B], &[B], |i| of_b(is_stand_in(v(i, 0)))),
];

/// The places of the two answers of normalising: the vector, and whether it is a stand-in.
pub const NORMALIZE: usize = 13;
pub const STAND_IN: usize = 28;

/// A vector so short that it has hardly a length or none, and whether zero is allowed.
pub fn short_vector(r: &mut Random) -> Inputs {
    let unit = two_to(r.below(16) as i32 - 545);
    let number = |r: &mut Random| match r.below(5) {
        0 => r.pick(&[0.0, -0.0, 5e-324, two_to(-600)]),
        1 => NO_SQUARE,
        2 => NO_SQUARE.next_up(),
        3 => unit * (r.below(5) as f64 - 2.0),
        _ => unit * r.unit(),
    };
    let (x, y) = (number(r), number(r));
    let sign = r.below(2) << 63;
    [x.to_bits() ^ sign, y.to_bits(), r.below(2), 0, 0]
}

/// P10, what is a stand-in beside it and what is none, each by both flags; short vectors.
fn stand_in_examples(r: &mut Random) -> Vec<Inputs> {
    let tiny = two_to(-600);
    let vectors = [
        (tiny, 0.0),
        (0.0, 1.0),
        (0.0, 0.0),
        (-0.0, 0.0),
        (0.0, -0.0),
        (0.0, -tiny),
        (0.0, 5e-324),
        (NO_SQUARE, -NO_SQUARE),
        (0.0, NO_SQUARE.next_up()),
        (0.0, two_to(-537)),
        (-0.0, 1.0),
        (0.0, -1.0),
        (1.0, 0.0),
        (0.0, f64::MAX),
        (f64::INFINITY, 0.0),
        (f64::NAN, 0.0),
    ];
    let each = |(x, y): (f64, f64)| [0, 1].map(|flag| [x.to_bits(), y.to_bits(), flag, 0, 0]);
    let short = (0..32).map(|_| short_vector(r));
    vectors.into_iter().flat_map(each).chain(short).collect()
}

/// A record of eight words: the function's number, the inputs, the outputs.
pub fn record(number: usize, inputs: &Inputs, outputs: &Outputs) -> [u64; 8] {
    let words = [&[number as u64][..], inputs, outputs].concat();
    words.try_into().unwrap()
}

/// The vectors of one leaf: SCOPE's examples and the special values first.
pub fn sample(number: usize) -> Vec<(Inputs, Outputs)> {
    let leaf = &LEAVES[number];
    let r = &mut Random(number as u64);
    let mut inputs: Vec<Inputs> = Vec::new();
    if number == STAND_IN {
        inputs = stand_in_examples(r);
    }
    if leaf.inputs.is_empty() {
        inputs.push([0; 5]);
    } else if number == 0 {
        for (_, kind) in roots::KINDS {
            let mut all = Vec::new();
            kind(r, 1, &mut |bits| all.push(bits));
            let stride = all.len() / 200 + 1;
            inputs.extend(all.iter().step_by(stride).map(|&bits| [bits, 0, 0, 0, 0]));
        }
    } else {
        while inputs.len() < 96 {
            let i = leaf.random_inputs(r);
            if !(leaf.open)(&i) {
                inputs.push(i);
            }
        }
    }
    inputs.iter().map(|i| (*i, leaf.answer(i))).collect()
}
