//! Multiples of classes and repeated halves (document 02, request 4). These cases are made when they are run, and not
//! stored.

use super::drawn::{class_of_kind, drawn_curve, KINDS};
use super::{Case, CurveValues, HALVINGS, MULTIPLE};
use crate::bench_classes::all_classes;
use crate::class_number::class_number;
use crate::halving::halves_from_doubles;
use crate::jacobian::Class;
use crate::multiples::{multiples, HALVINGS_LIMIT, MULTIPLE_LIMIT};
use crate::random::Random;

/// So many classes of each degree from 0 to 3, evenly apart in the list of all classes of a curve.
fn of_every_degree(classes: &[Class], numbers: [usize; 4]) -> Vec<Class> {
    let of_degree = |degree| classes.iter().filter(move |class| class.degree() == degree).collect::<Vec<_>>();
    let mut taken = vec![];
    for (degree, number) in numbers.into_iter().enumerate() {
        let all = of_degree(degree);
        assert!(all.len() >= number, "{} classes of degree {degree}", all.len());
        taken.extend((0..number).map(|i| all[i * all.len() / number].clone()));
    }
    taken
}

/// A thousand classes of a curve of the bench field, each times 0 to 70 by one sum after the other, and halved 0 to 64
/// times by looking among the doubles of all classes.
pub fn bench(values: CurveValues) -> Vec<Case> {
    let curve = values.curve().expect("the curve is accepted");
    let classes = all_classes(&curve);
    let halves = halves_from_doubles(&curve, &classes);
    let mut cases = vec![];
    for class in of_every_degree(&classes, [1, 20, 79, 900]) {
        for (n, expected) in (0..=70).zip(multiples(&curve, &class)) {
            cases.push(Case::known(MULTIPLE, values, &class, n, &expected));
        }
        let mut halved = &class;
        for k in 0..=HALVINGS_LIMIT {
            cases.push(Case::known(HALVINGS, values, &class, k, halved));
            halved = &halves[halved];
        }
    }
    cases
}

/// Multiples of forty classes of a curve of the bench field that are known from the number of its classes, the order of
/// the group, without multiplying: by the order and by twice that, by one more and one less, by half of one more, and by
/// the largest numbers below 2^61 that are the order's multiple and one more.
pub fn order(values: CurveValues) -> Vec<Case> {
    let curve = values.curve().expect("the curve is accepted");
    let classes = all_classes(&curve);
    let order = class_number(&curve) as u64;
    assert_eq!(classes.len() as u64, order);
    let halves = halves_from_doubles(&curve, &classes);
    let neutral = Class::neutral();
    // not from 2^61 - 1, so that one more is below 2^61 too
    let largest = (MULTIPLE_LIMIT - 2) / order * order;
    let on_class = |class: &Class| {
        [
            (order, &neutral),
            (order + 1, class),
            (order - 1, &curve.opposite(class)),
            (2 * order, &neutral),
            ((order + 1) / 2, &halves[class]),
            (largest, &neutral),
            (largest + 1, class),
        ]
        .map(|(n, expected)| Case::known(MULTIPLE, values, class, n, expected))
    };
    of_every_degree(&classes, [1, 9, 10, 20]).iter().flat_map(on_class).collect()
}

/// Twenty cases on a class over GF(2^61): multiples by drawn numbers, at the edges and beyond; halvings of what the class
/// comes to when it is doubled as often, of the class itself, and more than there may be.
fn on_class(random: &mut Random, values: CurveValues, class: &Class) -> Vec<Case> {
    let last = MULTIPLE_LIMIT - 1;
    let mut factors = vec![0, 1, 2, 3, 1 << 60, last, MULTIPLE_LIMIT, MULTIPLE_LIMIT + 1, u64::MAX];
    factors.extend((0..4).map(|_| random.number() >> 3));
    let doubled = [HALVINGS_LIMIT, random.number() % 65, random.number() % 65];
    let halved = [0, random.number() % 65, HALVINGS_LIMIT + 1, u64::MAX];
    let mut cases: Vec<Case> = factors.into_iter().map(|n| Case::multiple(values, class, n)).collect();
    cases.extend(doubled.map(|k| Case::halved_doublings(values, class, k)));
    cases.extend(halved.map(|k| Case::halvings(values, class, k)));
    cases
}

/// The twenty cases on each of some drawn curves, the kinds of classes by turns.
fn on_curves(number: usize) -> Vec<Case> {
    let mut random = Random::new(67);
    let mut cases = vec![];
    for kind in KINDS.iter().cycle().take(number) {
        let (values, curve) = drawn_curve(&mut random);
        let class = class_of_kind(&mut random, &curve, kind).0;
        cases.extend(on_class(&mut random, values, &class));
    }
    cases
}

/// The cases on forty curves over GF(2^61).
pub fn wide() -> Vec<Case> {
    on_curves(40)
}

#[cfg(test)]
mod tests {
    use super::*;
    use crate::field::BENCH;
    use crate::multiples::multiple;
    use std::collections::HashSet;

    fn degrees(cases: &[Case]) -> HashSet<u64> {
        cases.iter().map(|case| case.a.degree).collect()
    }

    /// As many cases as tests/conformance counts, with every degree. What is known of them without multiplying is what multiplying
    /// and halving give.
    #[test]
    fn multiples_of_bench_curves() {
        for [f3, f1, f0] in [[0, 0, 0], [31, 31, 31]] {
            let values = CurveValues::new(BENCH, f3, f1, f0);
            let (small, by_order) = (bench(values), order(values));
            assert_eq!((small.len(), by_order.len()), (136_000, 280));
            for cases in [&small, &by_order] {
                assert_eq!(degrees(cases), HashSet::from([0, 1, 2, 3]));
            }
            for case in small.iter().step_by(401).chain(&by_order) {
                assert_eq!(*case, Case::new(case.call, values, case.a, case.b));
            }
        }
    }

    /// Twenty cases on a curve, with every degree among the first eight, and so many of each refusal.
    #[test]
    fn multiples_of_wide_curves() {
        let cases = on_curves(8);
        assert_eq!(cases.len(), 160);
        assert_eq!(degrees(&cases), HashSet::from([0, 1, 2, 3]));
        for (line, number) in [("refused 118\n", 24), ("refused 119\n", 16)] {
            assert_eq!(cases.iter().filter(|case| case.line == line).count(), number);
        }
    }

    /// The largest multiple of the order below 2^61 by hand, for f = x^7 with its 32,417 classes.
    #[test]
    fn largest_multiple_of_the_order() {
        let values = CurveValues::new(BENCH, 0, 0, 0);
        let curve = values.curve().expect("the curve is accepted");
        let largest = order(values)[5].b.degree;
        assert_eq!(largest % 32417, 0);
        assert!(largest < 1 << 61 && largest + 32417 > (1 << 61) - 1);
        assert_eq!(multiple(&curve, largest, &Class::new(vec![0, 1], vec![])), Ok(Class::neutral()));
    }
}
