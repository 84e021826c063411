//! The square root, the scalar helpers and the vectors.

use crate::Tally;
use crate::records::fault;
use crate::shapes::Classes;
use crate::stand_ins::rounds_one_by_one;
use oracle::leaves::{Inputs, LEAVES, Leaf, NORMALIZE, STAND_IN, record, short_vector};
use oracle::math::Vector2;
use oracle::numbers::Random;
use oracle::roots;
use oracle::stand_ins::is_stand_in;

/// Compares one answer, if Rust leaves it not open.
fn one(part: &mut Tally, number: usize, inputs: &Inputs) {
    let leaf: &Leaf = &LEAVES[number];
    if (leaf.open)(inputs) {
        return;
    }
    let expected = leaf.answer(inputs);
    let fault = fault(&record(number, inputs, &expected), leaf.answer_words());
    part.note(fault.is_none(), || {
        format!("{} of {inputs:016X?}, {expected:016X?}: {}", leaf.name, fault.unwrap_or_default())
    });
}

pub fn compare(all: &mut Tally) {
    for (name, kind) in roots::KINDS {
        let mut part = Tally::default();
        kind(&mut Random(1), 2000, &mut |bits| {
            one(&mut part, 0, &[bits, 0, 0, 0, 0]);
            one(&mut part, 1, &[bits, 0, 0, 0, 0]);
        });
        all.close(&format!("root, {name}"), part);
    }
    for (number, leaf) in LEAVES.iter().enumerate() {
        let mut part = Tally::default();
        let r = &mut Random(number as u64 + 100);
        let times = if leaf.inputs.is_empty() { 1 } else { 1_000_000 };
        (0..times).for_each(|_| one(&mut part, number, &leaf.random_inputs(r)));
        all.close(leaf.name, part);
    }
    short_vectors(all);
}

/// Normalising and its flag, of vectors that have hardly a length or none.
fn short_vectors(all: &mut Tally) {
    let mut part = Tally::default();
    let mut classes = Classes::default();
    let r = &mut Random(90);
    for _ in 0..400_000 {
        let i = short_vector(r);
        one(&mut part, NORMALIZE, &i);
        one(&mut part, STAND_IN, &i);
        let v = Vector2::new(f64::from_bits(i[0]), f64::from_bits(i[1]));
        vector_classes(&mut classes, v, i[2] == 1);
    }
    classes.close(all);
    all.close("normalize and stand_in, short vectors", part);
}

fn vector_classes(classes: &mut Classes, v: Vector2, allow_zero: bool) {
    let none = is_stand_in(v);
    classes.note("a stand-in, zero allowed", none && allow_zero);
    classes.note("a stand-in, zero not allowed", none && !allow_zero);
    classes.note("a vector with a length, zero allowed", !none && allow_zero);
    classes.note("a vector with a length, zero not allowed", !none && !allow_zero);
    classes.note("a stand-in for (0, 0)", !v.is_nonzero());
    classes.note("a stand-in for another vector", none && v.is_nonzero());
    classes.note("a stand-in, since the squares round one by one", rounds_one_by_one(v));
    classes.note("the shortest vector with a length", v.squared_length() == f64::from_bits(1));
}
