//! Classes of every degree over GF(2^61), on curves whose three coefficients are drawn from the whole field.
//!
//! A class of degree up to 3 is a sum of that many points, distinct or not; one of degree 3 also of five points, and
//! then u need not have roots.

use super::{
    Case, CurveValues, DOUBLE, DOUBLE_AND_ADD, DOUBLE_IN_STEPS, DOUBLE_OF_HALF, HALF_OF_DOUBLE, MEMBERSHIP,
    OPPOSITE, SUM, SUM_IN_STEPS,
};
use crate::field::WIDE;
use crate::halving::{half, HalfByFrobenius};
use crate::jacobian::{Class, Curve};
use crate::random::Random;

/// The kinds of classes: how often each of some points is taken.
pub(super) const KINDS: [&[usize]; 8] = [&[], &[1], &[1, 1], &[2], &[1, 1, 1], &[2, 1], &[3], &[1, 1, 1, 1, 1]];

/// How many curves are drawn; on each there is one class of every kind.
const CURVES: usize = 25;

/// The sum of points, each taken as often as the kind says, and the first of the points.
pub(super) fn class_of_kind(random: &mut Random, curve: &Curve, kind: &[usize]) -> (Class, Class) {
    let points: Vec<Class> = kind.iter().map(|_| curve.drawn_point(random)).collect();
    let mut class = Class::neutral();
    for (point, &times) in points.iter().zip(kind) {
        class = curve.sum(&class, &curve.multiple(times as u128, point));
    }
    assert_eq!(class.degree(), kind.iter().sum::<usize>().min(3));
    (class, points.into_iter().next().unwrap_or_else(Class::neutral))
}

/// Every call on a class: the half of its double, doubled with another class added and back, and sums with itself, its
/// opposite, the neutral class, another class, and classes that share a root with it, by a point of it and by that
/// point's opposite.
fn on_class(random: &mut Random, values: CurveValues, curve: &Curve, kind: &[usize]) -> Vec<Case> {
    let (class, shared) = class_of_kind(random, curve, kind);
    let other_kind = KINDS[(random.number() % 8) as usize];
    let other = class_of_kind(random, curve, other_kind).0;
    let beside = curve.drawn_point(random);
    let opposite = curve.opposite(&class);
    let shared_opposite = curve.opposite(&shared);
    let mut cases: Vec<Case> = [MEMBERSHIP, OPPOSITE, DOUBLE, HALF_OF_DOUBLE, DOUBLE_OF_HALF, DOUBLE_IN_STEPS]
        .map(|call| Case::on(call, values, &class))
        .to_vec();
    cases.push(Case::half(values, &curve.double(&class), &class));
    for second in [&class, &opposite, &Class::neutral(), &other] {
        cases.push(Case::on_two(SUM, values, &class, second));
    }
    cases.push(Case::on_two(SUM_IN_STEPS, values, &class, &other));
    cases.push(Case::on_two(DOUBLE_AND_ADD, values, &class, &other));
    cases.push(Case::halved_difference(values, &class, &other));
    for root in [&shared, &shared_opposite] {
        cases.push(Case::on_two(SUM, values, &class, &curve.sum(root, &beside)));
        cases.push(Case::on_two(SUM, values, &curve.sum(root, &beside), &class));
    }
    cases
}

/// Halves of classes of every kind on the eight curves with coefficients 0 and 1, where the half is known of any class.
fn known_halves() -> Vec<Case> {
    let mut random = Random::new(62);
    let mut cases = vec![];
    for i in 0..8 {
        let values = CurveValues::new(WIDE, i & 1, i >> 1 & 1, i >> 2);
        let curve = values.curve().expect("the curve is accepted");
        let halves = HalfByFrobenius::new(&curve);
        for kind in KINDS {
            let class = class_of_kind(&mut random, &curve, kind).0;
            cases.push(Case::half(values, &class, &halves.half(&class)));
        }
    }
    cases
}

pub(super) fn drawn_curve(random: &mut Random) -> (CurveValues, Curve) {
    let values = CurveValues::new(WIDE, random.element(WIDE), random.element(WIDE), random.element(WIDE));
    (values, values.curve().expect("the curve is accepted"))
}

/// The stored cases.
pub fn cases() -> Vec<Case> {
    let mut random = Random::new(61);
    let mut cases = vec![];
    for _ in 0..CURVES {
        let (values, curve) = drawn_curve(&mut random);
        for kind in KINDS {
            cases.extend(on_class(&mut random, values, &curve, kind));
        }
    }
    cases.extend(known_halves());
    cases
}

/// The seven calls on a thousand classes, each on a curve of its own; these are not stored. By turns of eight the class is a
/// double, so that its half is of the kind drawn, or it is itself of that kind, and its half is found by solving. Thus the
/// degrees of a class and of its half are every two that can be.
pub fn thousand() -> Vec<Case> {
    let mut random = Random::new(63);
    let mut cases = vec![];
    for i in 0..1000 {
        let (values, curve) = drawn_curve(&mut random);
        let [of_kind, second] = [KINDS[i % 8], &[1; 5]].map(|kind| class_of_kind(&mut random, &curve, kind).0);
        let (class, its_half) = if i / 8 % 2 == 0 {
            (curve.double(&of_kind), of_kind)
        } else {
            (of_kind.clone(), half(&curve, &of_kind))
        };
        cases.extend(Case::seven(values, &class, &its_half, &second));
    }
    cases
}

/// Six calls in the common case, on two classes of degree 3 of each of eight curves; for what counts the calls on
/// elements.
pub fn common() -> Vec<Case> {
    let mut random = Random::new(64);
    let mut cases = vec![];
    for _ in 0..8 {
        let (values, curve) = drawn_curve(&mut random);
        let [class, other] = [0; 2].map(|_| class_of_kind(&mut random, &curve, KINDS[7]).0);
        cases.push(Case::on(MEMBERSHIP, values, &class));
        cases.push(Case::on(DOUBLE, values, &class));
        cases.push(Case::half(values, &curve.double(&class), &class));
        cases.push(Case::on_two(SUM, values, &class, &other));
        cases.push(Case::on_two(DOUBLE_AND_ADD, values, &class, &other));
        cases.push(Case::halved_difference(values, &class, &other));
    }
    cases
}

#[cfg(test)]
mod tests {
    use super::super::HALF;
    use super::*;
    use std::collections::HashSet;

    /// 200 classes, of every degree; halves of classes of every degree; sums of every degree.
    #[test]
    fn every_degree() {
        let cases = cases();
        let degrees = |call| -> HashSet<u64> {
            cases.iter().filter(|case| case.call == call).map(|case| case.a.degree).collect()
        };
        assert_eq!(cases.iter().filter(|case| case.call == DOUBLE).count(), 200);
        for call in [DOUBLE, HALF, SUM] {
            assert_eq!(degrees(call), HashSet::from([0, 1, 2, 3]));
        }
        for degree in 0..4 {
            let start = format!("{degree}:");
            for call in [DOUBLE, HALF, SUM] {
                if (call, degree) != (DOUBLE, 1) {
                    assert!(
                        cases.iter().any(|case| case.call == call && case.line.starts_with(&start)),
                        "{call} {degree}"
                    );
                }
            }
        }
    }
}
