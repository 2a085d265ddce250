//! Every class of a curve over the bench field, call by call. These cases are made when they are run, and not stored.

use super::{
    Case, ClassValues, CurveValues, DOUBLE_AND_ADD, DOUBLE_IN_STEPS, MEMBERSHIP, NEUTRAL, SUM, SUM_IN_STEPS,
};
use crate::bench_classes::all_classes;
use crate::class_number::class_number;
use crate::field::BENCH;
use crate::halving::halves_from_doubles;
use crate::jacobian::{Class, Curve};
use crate::random::Random;

/// What is run on every class D of a curve.
pub const KINDS: [&str; 9] = [
    "every-class",
    "sum-with-next",
    "sum-with-itself",
    "sum-with-opposite",
    "double-in-steps",
    "sum-in-steps",
    "double-and-add",
    "subtract-and-halve",
    "pairs",
];

/// The seven calls on every class. The classes come in a drawn order, and the sum is with the next of them, so that each is
/// once the first of a sum and once the second.
fn every_class(values: CurveValues, curve: &Curve, classes: Vec<Class>) -> Vec<Case> {
    let halves = halves_from_doubles(curve, &classes);
    let classes = Random::new(65).shuffled(classes);
    let nexts = classes.iter().cycle().skip(1);
    classes.iter().zip(nexts).flat_map(|(class, next)| Case::seven(values, class, &halves[class], next)).collect()
}

/// The case of another kind on the class at place i of a curve's list. The second class is one far off in the list, or the
/// next one, which mostly has the same u.
fn on_class(kind: &str, values: CurveValues, curve: &Curve, classes: &[Class], i: usize) -> Case {
    let class = &classes[i];
    let at = |place: usize| &classes[place % classes.len()];
    match kind {
        "double-in-steps" => Case::on(DOUBLE_IN_STEPS, values, class),
        "sum-in-steps" => Case::on_two(SUM_IN_STEPS, values, class, at(12345 * i + 7)),
        "double-and-add" => Case::on_two(DOUBLE_AND_ADD, values, class, at(12345 * i + 7)),
        "subtract-and-halve" => Case::halved_difference(values, class, at(12345 * i + 7)),
        "sum-with-next" => Case::on_two(SUM, values, class, at(i + 1)),
        "sum-with-itself" => Case::on_two(SUM, values, class, class),
        "sum-with-opposite" => Case::on_two(SUM, values, class, &curve.opposite(class)),
        _ => panic!("no kind {kind}"),
    }
}

/// Membership of pairs of which few are classes: all of degree 1, and of degree 2 all with one of 34 u.
fn pairs(values: CurveValues) -> Vec<Case> {
    let case = |degree, u, v| Case::new(MEMBERSHIP, values, ClassValues { degree, u, v }, NEUTRAL);
    let row = |bits: u64| [bits & 31, bits >> 5, 0];
    let mut cases = vec![];
    for u in 0..32 {
        cases.extend((0..32).map(|v| case(1, row(u), row(v))));
    }
    for u in (0..1024).step_by(31) {
        cases.extend((0..1024).map(|v| case(2, row(u), row(v))));
    }
    cases
}

/// The cases of a kind on the curve. The list of its classes has to be as long as the points say.
pub fn cases(kind: &str, values: CurveValues) -> Vec<Case> {
    if kind == "pairs" {
        return pairs(values);
    }
    let curve = values.curve().expect("the curve is accepted");
    assert_eq!(curve.field, BENCH);
    let classes = all_classes(&curve);
    assert_eq!(classes.len(), class_number(&curve));
    if kind == "every-class" {
        return every_class(values, &curve, classes);
    }
    (0..classes.len()).map(|i| on_class(kind, values, &curve, &classes, i)).collect()
}
