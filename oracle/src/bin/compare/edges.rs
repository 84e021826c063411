//! Edges and their colors.

use crate::Tally;
use crate::records::fault;
use crate::shapes::Classes;
use oracle::edges::{Answer, FUNCTIONS, Given, Inputs, Outputs, record};
use oracle::numbers::Random;

/// Every input of a function on colors: all bytes, with channels 0 to 300 and the largest numbers.
fn colors(given: Given, each: &mut dyn FnMut(Inputs)) {
    let channels: Vec<u64> = match given {
        Given::Channel => (0..=300).chain(u64::MAX - 300..=u64::MAX).collect(),
        _ => vec![0],
    };
    let bytes = if given == Given::Nothing { 0..1 } else { 0..256 };
    for kind in bytes {
        for &parameter in &channels {
            each(Inputs { kind, places: [0; 8], parameter });
        }
    }
}

/// Every kind that is none, as the stored form has it: answered by 0.
fn kinds(part: &mut Tally) {
    let stored = FUNCTIONS.iter().position(|f| f.name == "stored").unwrap();
    for kind in (0..256).filter(|kind| !(1..=3).contains(kind)) {
        let inputs = Inputs { kind, places: [0; 8], parameter: 0 };
        let none = Outputs { number: 0, places: [0; 8] };
        let fault = fault(&record(stored, &inputs, &none), Answer::Number.words());
        part.note(fault.is_none(), || format!("kind {kind}: {}", fault.unwrap_or_default()));
    }
}

/// Which unit directions were compared, with a stand-in and without.
fn unit_classes(classes: &mut Classes, i: &Inputs, unit: &Outputs) {
    let t = f64::from_bits(i.parameter);
    let (none, up) = (unit.number == 1, unit.places[..2] == [0, 1.0f64.to_bits()]);
    classes.note("stand-ins, line", none && i.kind == 1);
    classes.note("stand-ins, quadratic", none && i.kind == 2);
    classes.note("stand-ins, cubic", none && i.kind == 3);
    classes.note("stand-ins at 0", none && t == 0.0);
    classes.note("stand-ins at 1", none && t == 1.0);
    classes.note("stand-ins between", none && t > 0.0 && t < 1.0);
    classes.note("stand-ins outside", none && !(0.0..=1.0).contains(&t));
    let direction = i.edge().direction(t);
    classes.note("stand-ins for a direction that is not zero", none && direction.is_nonzero());
    classes.note("(0, 1) and no stand-in", up && !none);
}

pub fn compare(all: &mut Tally) {
    for (number, function) in FUNCTIONS.iter().enumerate() {
        let (mut part, mut classes) = (Tally::default(), Classes::default());
        let mut one = |i: Inputs| {
            let expected = function.answer(&i);
            if let Answer::Unit = function.answers {
                unit_classes(&mut classes, &i, &expected);
            }
            let fault = fault(&record(number, &i, &expected), function.answers.words());
            part.note(fault.is_none(), || {
                let Inputs { kind, places, parameter } = i;
                let (name, fault) = (function.name, fault.unwrap_or_default());
                format!(
                    "{name}, {kind}, {places:016X?}, {parameter:016X}, {expected:016X?}: {fault}"
                )
            });
        };
        match function.given {
            Given::Edge | Given::Third => {
                let r = &mut Random(number as u64 + 300);
                (0..2_000_000).for_each(|_| one(function.random_inputs(r)));
            }
            given => colors(given, &mut one),
        }
        classes.close(all);
        all.close(function.name, part);
    }
    let mut part = Tally::default();
    kinds(&mut part);
    all.close("unknown kinds", part);
}
