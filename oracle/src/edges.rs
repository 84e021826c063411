//! The functions of geometry/ as functions on words, so that one loop makes vectors of them all and
//! one compares them all, and the edges to try.

use crate::geometry::{EdgeColor, EdgeSegment};
use crate::leaves::one_nan;
use crate::math::Vector2;
use crate::numbers::{Random, SPECIAL};
use crate::stand_ins::{is_stand_in, known_edges};
use std::ops::Range;

/// A kind number (or a color, as a byte), eight places and a parameter: t as a double's bits, or a
/// number.
#[derive(Clone, Copy)]
pub struct Inputs {
    pub kind: u64,
    pub places: [u64; 8],
    pub parameter: u64,
}

/// A number and eight doubles, those that are not used +0.
#[derive(Clone, Copy, Debug, PartialEq)]
pub struct Outputs {
    pub number: u64,
    pub places: [u64; 8],
}

impl Inputs {
    fn points(&self) -> [f64; 8] {
        self.places.map(f64::from_bits)
    }

    fn t(&self) -> f64 {
        f64::from_bits(self.parameter)
    }

    fn point(&self, i: usize) -> Vector2 {
        let p = self.points();
        Vector2::new(p[2 * i], p[2 * i + 1])
    }

    /// The edge of the kind that is given: nothing collapses.
    pub fn edge(&self) -> EdgeSegment {
        let p = |i| self.point(i);
        match self.kind {
            1 => EdgeSegment::Line([p(0), p(1)]),
            2 => EdgeSegment::Quadratic([p(0), p(1), p(2)]),
            _ => EdgeSegment::Cubic([p(0), p(1), p(2), p(3)]),
        }
    }

    fn color(&self) -> EdgeColor {
        EdgeColor::from_bits(self.kind as u8)
    }
}

fn of_number(number: u64) -> Outputs {
    Outputs { number, places: [0; 8] }
}

fn of_places(number: u64, places: &[f64]) -> Outputs {
    let mut out = of_number(number);
    for (o, p) in out.places.iter_mut().zip(places) {
        *o = p.to_bits();
    }
    out
}

fn of_vector(v: Vector2) -> Outputs {
    of_places(0, &[v.x, v.y])
}

fn of_edge(e: EdgeSegment) -> Outputs {
    let (points, order) = e.control_points();
    let places: Vec<f64> = points.iter().flat_map(|p| [p.x, p.y]).collect();
    of_places(order as u64, &places)
}

/// What a function's inputs are.
#[derive(Clone, Copy, PartialEq)]
pub enum Given {
    /// An edge and t.
    Edge,
    /// An edge and a place in its split, 0 to 2.
    Third,
    /// A color.
    Color,
    /// A color and a channel.
    Channel,
    Nothing,
}

/// What a function answers.
#[derive(Clone, Copy)]
pub enum Answer {
    Number,
    Vector,
    /// A flag and a vector.
    Unit,
    /// A kind and eight places.
    Edge,
}

impl Answer {
    /// The words of a record that are the answer. The others after the parameter are 0 and not compared.
    pub fn words(self) -> Range<usize> {
        match self {
            Answer::Number => 11..12,
            Answer::Vector => 12..14,
            Answer::Unit => 11..14,
            Answer::Edge => 11..20,
        }
    }
}

pub struct Function {
    pub name: &'static str,
    pub given: Given,
    pub answers: Answer,
    pub reference: fn(&Inputs) -> Outputs,
    /// How many vectors there are of it.
    pub sample: usize,
}

/// There are three channels; the source's shift wraps beyond them.
fn has_channel(i: &Inputs) -> bool {
    i.parameter <= 2 && i.color().has_channel(i.parameter as usize)
}

macro_rules! function {
    ($name:expr, $given:ident, $answers:ident, $sample:expr, $reference:expr) => {
        Function {
            name: $name,
            given: Given::$given,
            answers: Answer::$answers,
            reference: $reference,
            sample: $sample,
        }
    };
}

/// In this order they have their numbers in the vectors.
pub const FUNCTIONS: [Function; 15] = [
    function!("split_in_thirds", Third, Edge, 300, |i| {
        of_edge(i.edge().split_in_thirds()[i.parameter as usize])
    }),
    function!("unit_direction", Edge, Unit, 240, |i| {
        let direction = i.edge().direction(i.t());
        let unit = direction.normalize(false);
        of_places(is_stand_in(direction) as u64, &[unit.x, unit.y])
    }),
    function!("direction", Edge, Vector, 200, |i| of_vector(i.edge().direction(i.t()))),
    function!("point", Edge, Vector, 200, |i| of_vector(i.edge().point(i.t()))),
    function!("line", Edge, Edge, 40, |i| of_edge(EdgeSegment::line(i.point(0), i.point(1)))),
    function!("quadratic", Edge, Edge, 160, |i| {
        of_edge(EdgeSegment::quadratic(i.point(0), i.point(1), i.point(2)))
    }),
    function!("cubic", Edge, Edge, 240, |i| {
        of_edge(EdgeSegment::cubic(i.point(0), i.point(1), i.point(2), i.point(3)))
    }),
    function!("order", Edge, Number, 16, |i| of_number(i.edge().order() as u64)),
    function!("stored", Edge, Edge, 100, |i| of_edge(i.edge())),
    function!("bits", Color, Number, 32, |i| of_number(i.color().bits() as u64)),
    function!("has_red", Color, Number, 16, |i| of_number(i.color().has_red() as u64)),
    function!("has_green", Color, Number, 16, |i| of_number(i.color().has_green() as u64)),
    function!("has_blue", Color, Number, 16, |i| of_number(i.color().has_blue() as u64)),
    function!("has_channel", Channel, Number, 64, |i| of_number(has_channel(i) as u64)),
    function!("default", Nothing, Number, 1, |_| of_number(EdgeColor::default().bits() as u64)),
];

/// A record of 20 words: the function's number, from 32 on; a kind, eight places and a parameter; a
/// number and eight places.
pub fn record(number: usize, i: &Inputs, o: &Outputs) -> [u64; 20] {
    let head = [32 + number as u64, i.kind];
    let words = [&head[..], &i.places, &[i.parameter, o.number], &o.places].concat();
    words.try_into().unwrap()
}

// ---- edges to try

type Points = [[f64; 2]; 4];

fn points(mut each: impl FnMut() -> f64) -> Points {
    std::array::from_fn(|_| [each(), each()])
}

fn whole(r: &mut Random, reach: u64) -> f64 {
    r.below(2 * reach + 1) as f64 - reach as f64
}

/// A number among those that a glyph has.
fn ordinary(r: &mut Random) -> f64 {
    match r.below(4) {
        0 => whole(r, 4),
        1 => r.unit(),
        2 => whole(r, 1 << 20),
        _ => r.unit() * 1_048_576.0,
    }
}

fn subnormal(r: &mut Random) -> f64 {
    f64::from_bits(r.below(2) << 63 | (r.next() & 0x000F_FFFF_FFFF_FFFF) >> r.below(52))
}

const TWO_TO_MINUS_600: f64 = f64::from_bits(0x1A70_0000_0000_0000);
/// A number below it can have a square that is 0.
const TWO_TO_MINUS_536: f64 = f64::from_bits(0x1E70_0000_0000_0000);

fn any(r: &mut Random) -> Points {
    points(|| r.double())
}

fn special(r: &mut Random) -> Points {
    points(|| f64::from_bits(r.pick(&SPECIAL)))
}

fn ordinaries(r: &mut Random) -> Points {
    points(|| ordinary(r))
}

fn whole_numbers(r: &mut Random) -> Points {
    points(|| whole(r, 3))
}

fn at_the_bounds(r: &mut Random) -> Points {
    points(|| r.pick(&[-1_048_576.0, 1_048_576.0, 0.0, -0.0, 1_048_575.5]))
}

fn tiny(r: &mut Random) -> Points {
    match r.below(3) {
        0 => points(|| whole(r, 3) * TWO_TO_MINUS_600),
        1 => points(|| r.unit() * TWO_TO_MINUS_536),
        _ => points(|| subnormal(r)),
    }
}

fn signed_zeros(r: &mut Random) -> Points {
    points(|| r.pick(&[0.0, -0.0, -0.0, 1.0, -3.0, 3.0]))
}

/// Some points equal to others, also with the other zero.
fn coincident(r: &mut Random) -> Points {
    let mut p = match r.below(3) {
        0 => ordinaries(r),
        1 => signed_zeros(r),
        _ => any(r),
    };
    for _ in 0..1 + r.below(3) {
        let (i, j) = r.pick(&[(1, 0), (2, 3), (2, 0), (3, 0), (2, 1), (3, 1)]);
        p[i] = p[j];
        if p[i][0] == 0.0 && r.coin() {
            p[i][0] = -p[i][0];
        }
    }
    p
}

/// On one line: exactly, for small whole numbers, or but for roundings.
fn collinear(r: &mut Random) -> Points {
    let start = [ordinary(r), ordinary(r)];
    let step = if r.coin() { [whole(r, 9), whole(r, 9)] } else { [ordinary(r), ordinary(r)] };
    let exact = r.coin();
    std::array::from_fn(|_| {
        let k = if exact { whole(r, 5) } else { r.unit() };
        let start = if exact { start.map(f64::trunc) } else { start };
        [start[0] + k * step[0], start[1] + k * step[1]]
    })
}

/// A cubic that is a quadratic: exactly, for multiples of three, or but for roundings. Now and then
/// with one number changed a little.
fn raised(r: &mut Random) -> Points {
    let exact = r.below(3) != 0;
    let mut number = || if exact { 3.0 * whole(r, 300) } else { r.unit() };
    let [a, b, q, _] = points(&mut number);
    let inner = |p: [f64; 2]| [(p[0] + 2.0 * q[0]) / 3.0, (p[1] + 2.0 * q[1]) / 3.0];
    let mut p = [a, inner(a), inner(b), b];
    if r.below(4) == 0 {
        let (i, j) = (r.below(4) as usize, r.below(2) as usize);
        p[i][j] = f64::from_bits(p[i][j].to_bits() ^ 1);
    }
    p
}

/// One number that is infinite or a NaN among ordinary ones.
fn one_not_finite(r: &mut Random) -> Points {
    let mut p = if r.coin() { ordinaries(r) } else { coincident(r) };
    let (i, j) = (r.below(4) as usize, r.below(2) as usize);
    p[i][j] = r.pick(&[f64::INFINITY, f64::NEG_INFINITY, f64::NAN]);
    p
}

const SHAPES: [fn(&mut Random) -> Points; 11] = [
    any,
    special,
    ordinaries,
    whole_numbers,
    at_the_bounds,
    tiny,
    signed_zeros,
    coincident,
    collinear,
    raised,
    one_not_finite,
];

/// Control points; now and then scaled by a power of two.
fn shape(r: &mut Random) -> Points {
    let p = r.pick(&SHAPES)(r);
    let scale = match r.below(16) {
        0 => TWO_TO_MINUS_600,
        1 => f64::from_bits(0x5FF0_0000_0000_0000), // 2^512
        2 => f64::from_bits(r.below(0x7FF) << 52),
        _ => 1.0,
    };
    p.map(|v| v.map(|x| x * scale))
}

fn parameter(r: &mut Random) -> f64 {
    match r.below(8) {
        0..4 => r.pick(&[0.0, -0.0, 1.0 / 3.0, 0.5, 2.0 / 3.0, 1.0]),
        4 | 5 => r.unit().abs(),
        6 => r.unit() * 3.0,
        _ => r.double(),
    }
}

const BEYOND: [u64; 8] = [3, 4, 7, 8, 9, 10, 64, u64::MAX];

impl Function {
    pub fn random_inputs(&self, r: &mut Random) -> Inputs {
        let mut inputs = Inputs { kind: 1 + r.below(3), places: [0; 8], parameter: 0 };
        match self.given {
            Given::Nothing => inputs.kind = 0,
            Given::Color => inputs.kind = r.below(256),
            Given::Channel => {
                inputs.kind = r.below(256);
                inputs.parameter = if r.coin() { r.below(3) } else { r.pick(&BEYOND) };
            }
            Given::Edge | Given::Third => {
                let p = shape(r);
                inputs.places = std::array::from_fn(|i| p[i / 2][i % 2].to_bits());
                inputs.parameter = match self.given {
                    Given::Third => r.below(3),
                    _ => parameter(r).to_bits(),
                };
            }
        }
        inputs
    }

    /// The reference's answer, with one pattern for every NaN.
    pub fn answer(&self, inputs: &Inputs) -> Outputs {
        let mut outputs = (self.reference)(inputs);
        outputs.places = outputs.places.map(one_nan);
        outputs
    }

    /// The vectors: SCOPE's examples first.
    pub fn vectors(&self, number: usize) -> Vec<(Inputs, Outputs)> {
        let r = &mut Random(number as u64 + 200);
        let mut inputs = examples(self.name);
        while inputs.len() < self.sample {
            let mut i = self.random_inputs(r);
            match self.given {
                Given::Third => inputs.extend((0..3).map(|parameter| Inputs { parameter, ..i })),
                // Each color as often as another.
                Given::Color | Given::Channel => {
                    i.kind = i.kind & !7 | inputs.len() as u64 & 7;
                    inputs.push(i);
                }
                _ => inputs.push(i),
            }
        }
        inputs.iter().map(|i| (*i, self.answer(i))).collect()
    }
}

/// An edge as the inputs have it, its unused places 0.
fn inputs_of(e: &EdgeSegment, t: f64) -> Inputs {
    let Outputs { number, places } = of_edge(*e);
    Inputs { kind: number, places, parameter: t.to_bits() }
}

/// P8 and P9, the splits of two lines to (3, 0); P10, the direction (2^-600, 0), and the other stand-ins.
fn examples(name: &str) -> Vec<Inputs> {
    let line = |from: f64, to: f64, parameter: u64| {
        let points = [from, 0.0, to, 0.0, 0.0, 0.0, 0.0, 0.0];
        Inputs { kind: 1, places: points.map(f64::to_bits), parameter }
    };
    match name {
        "split_in_thirds" => {
            [0.0, -0.0].iter().flat_map(|&from| (0..3).map(move |k| line(from, 3.0, k))).collect()
        }
        "unit_direction" => {
            let mut all = vec![line(0.0, TWO_TO_MINUS_600, 0)];
            for known in known_edges() {
                all.extend([0.0, 1.0].map(|t| inputs_of(&known.edge, t)));
            }
            all
        }
        _ => Vec::new(),
    }
}
