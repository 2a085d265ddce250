//! Multiples of a class and repeated halves of one (document 02, request 4). A multiple is made of sums alone: one after
//! the other, or by decimal digits. The proved crates double and add by binary digits.

use crate::halving::half;
use crate::jacobian::{Class, Curve};
use crate::stored::Refusal;

/// Multiples are by the numbers below this.
pub const MULTIPLE_LIMIT: u64 = 1 << 61;

/// A class is halved so often at most.
pub const HALVINGS_LIMIT: u64 = 64;

/// 0 times the class, once, twice and so on, each the one before plus the class.
pub fn multiples<'a>(curve: &'a Curve, class: &'a Class) -> impl Iterator<Item = Class> + 'a {
    std::iter::successors(Some(Class::neutral()), move |sum| Some(curve.sum(sum, class)))
}

/// Ten times the class by four sums.
fn ten_times(curve: &Curve, class: &Class) -> Class {
    let twice = curve.sum(class, class);
    let five_times = curve.sum(&curve.sum(&twice, &twice), class);
    curve.sum(&five_times, &five_times)
}

/// n times the class by n's decimal digits, the highest first: ten times what there is so far, plus the digit times the
/// class.
fn by_decimal_digits(curve: &Curve, n: u64, class: &Class) -> Class {
    let times_digit: Vec<Class> = multiples(curve, class).take(10).collect();
    n.to_string().bytes().fold(Class::neutral(), |so_far, digit| {
        curve.sum(&ten_times(curve, &so_far), &times_digit[(digit - b'0') as usize])
    })
}

/// Many multiples of one class by decimal digits: for each power of ten a row, 0 to 9 times that power times the class.
pub struct DecimalTable<'a> {
    curve: &'a Curve,
    rows: Vec<Vec<Class>>,
}

impl DecimalTable<'_> {
    /// For the numbers up to the largest.
    pub fn new<'a>(curve: &'a Curve, class: &Class, largest: u64) -> DecimalTable<'a> {
        let row = |power: &Class| multiples(curve, power).take(10).collect::<Vec<_>>();
        let rows = std::iter::successors(Some(row(class)), |last| Some(row(&curve.sum(&last[9], &last[1]))));
        DecimalTable { curve, rows: rows.take(largest.to_string().len()).collect() }
    }

    /// n times the class: the sum of what n's digits stand for, the lowest first.
    pub fn times(&self, n: u64) -> Class {
        let digits = n.to_string();
        assert!(digits.len() <= self.rows.len(), "the table is too small for {n}");
        let terms = digits.bytes().rev().zip(&self.rows).map(|(digit, row)| &row[(digit - b'0') as usize]);
        terms.fold(Class::neutral(), |so_far, term| self.curve.sum(&so_far, term))
    }
}

/// n times the class, or the refusal: 118 for an n that is too large.
pub fn multiple(curve: &Curve, n: u64, class: &Class) -> Result<Class, Refusal> {
    if n >= MULTIPLE_LIMIT {
        return Err(118);
    }
    Ok(by_decimal_digits(curve, n, class))
}

/// The class halved k times, or the refusal: 119 for a k that is too large.
pub fn halvings(curve: &Curve, k: u64, class: &Class) -> Result<Class, Refusal> {
    if k > HALVINGS_LIMIT {
        return Err(119);
    }
    Ok((0..k).fold(class.clone(), |class, _| half(curve, &class)))
}

/// The class doubled k times.
pub fn doublings(curve: &Curve, k: u64, class: &Class) -> Class {
    (0..k).fold(class.clone(), |class, _| curve.double(&class))
}

#[cfg(test)]
mod tests {
    use super::*;
    use crate::bench_classes::all_classes;
    use crate::class_number::class_number;
    use crate::field::{Field, BENCH, WIDE};
    use crate::random::Random;

    /// The neutral class and the sums of one to five drawn points, on a curve that has a point.
    fn drawn_classes(random: &mut Random, curve: &Curve) -> Vec<Class> {
        let mut classes = vec![Class::neutral()];
        for i in 0..5 {
            classes.push(curve.sum(&classes[i], &curve.drawn_point(random)));
        }
        classes
    }

    /// f = x^7, and a curve with three coefficients.
    fn curves(field: Field) -> [Curve; 2] {
        [[0, 0, 0], [5, 19, 30]].map(|[f3, f1, f0]| Curve::new(field, f3, f1, f0))
    }

    /// Small multiples one after the other, by decimal digits and by doubling and adding.
    #[test]
    fn small_multiples() {
        let mut random = Random::new(14);
        for curve in [BENCH, WIDE].into_iter().flat_map(curves) {
            for class in drawn_classes(&mut random, &curve) {
                for (n, expected) in multiples(&curve, &class).take(71).enumerate() {
                    assert!(curve.is_member(&expected));
                    assert_eq!(multiple(&curve, n as u64, &class).as_ref(), Ok(&expected));
                    assert_eq!(curve.multiple(n as u128, &class), expected);
                }
            }
        }
    }

    /// Any multiple, by decimal and by binary digits, and beyond the limit too from a table.
    #[test]
    fn large_multiples() {
        let mut random = Random::new(15);
        for curve in [BENCH, WIDE].into_iter().flat_map(curves) {
            for class in drawn_classes(&mut random, &curve) {
                let table = DecimalTable::new(&curve, &class, u64::MAX);
                for n in [MULTIPLE_LIMIT - 1, random.number() >> 3, random.number() >> 20] {
                    assert_eq!(multiple(&curve, n, &class), Ok(curve.multiple(n as u128, &class)), "{n}");
                    assert_eq!(multiple(&curve, n, &class), Ok(table.times(n)), "{n}");
                }
                for n in [MULTIPLE_LIMIT, 1 << 63, u64::MAX] {
                    assert_eq!(table.times(n), curve.multiple(n as u128, &class), "{n}");
                }
            }
        }
    }

    /// The number of classes times a class is neutral, one more the class and one less its opposite; and half of one more
    /// its half.
    #[test]
    fn order_of_the_group() {
        for curve in curves(BENCH) {
            let order = class_number(&curve) as u64;
            let classes = all_classes(&curve);
            for class in classes.iter().take(20).chain(classes.iter().step_by(977)) {
                assert_eq!(multiple(&curve, order, class), Ok(Class::neutral()));
                assert_eq!(multiple(&curve, order + 1, class).as_ref(), Ok(class));
                assert_eq!(multiple(&curve, order - 1, class), Ok(curve.opposite(class)));
                assert_eq!(multiple(&curve, (order + 1) / 2, class), Ok(half(&curve, class)));
            }
        }
    }

    /// Halvings undo as many doublings, and 2^k times is k doublings.
    #[test]
    fn halvings_and_doublings() {
        let mut random = Random::new(16);
        for curve in [BENCH, WIDE].into_iter().flat_map(curves) {
            for class in drawn_classes(&mut random, &curve) {
                for k in [0, 1, 2, 60, HALVINGS_LIMIT] {
                    assert_eq!(halvings(&curve, k, &doublings(&curve, k, &class)).as_ref(), Ok(&class));
                    let halved = halvings(&curve, k, &class).expect("so many are accepted");
                    assert_eq!(doublings(&curve, k, &halved), class);
                    if k <= 60 {
                        assert_eq!(multiple(&curve, 1 << k, &halved).as_ref(), Ok(&class));
                    }
                }
            }
        }
    }

    /// On f = x^7 the class [x, 0] has order 7, since three doublings bring it back: 2^61 - 1, which is 1 modulo 7, times it
    /// is the class. From 2^61 on all are 118, and from 65 on 119.
    #[test]
    fn limits() {
        let x = Class::new(vec![0, 1], vec![]);
        for field in [BENCH, WIDE] {
            let curve = Curve::new(field, 0, 0, 0);
            assert_eq!(multiple(&curve, MULTIPLE_LIMIT - 1, &x).as_ref(), Ok(&x));
            for n in [MULTIPLE_LIMIT, MULTIPLE_LIMIT + 1, 1 << 62, 1 << 63, u64::MAX] {
                assert_eq!(multiple(&curve, n, &x), Err(118));
            }
            // 63 is a multiple of three, so that one halving of 64 is left
            assert_eq!(halvings(&curve, HALVINGS_LIMIT, &x), Ok(Class::new(vec![0, 0, 0, 1], vec![1])));
            for k in [65, 66, 128, 1 << 32, 1 << 63, u64::MAX] {
                assert_eq!(halvings(&curve, k, &x), Err(119));
            }
        }
    }
}
