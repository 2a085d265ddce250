//! The class of an operation's stamp (document 02, request 2).

use crate::field::Field;
use crate::jacobian::{Class, Curve};
use crate::stored::Refusal;

/// The stamps of a field are the numbers below this.
pub fn stamp_limit(field: Field) -> u64 {
    1 << (field.degree - 3)
}

/// The class of the first of some numbers x that has one: u is X + x, and v the root of y^2 + y = f(x) with lowest bit 0.
pub fn first_class(curve: &Curve, mut candidates: impl Iterator<Item = u64>) -> Option<Class> {
    candidates.find_map(|x| curve.even_point(x))
}

/// The class of a stamp on a curve, or the refusal: 115 for a stamp that is too large, then 116 where none of its eight
/// candidates has a root.
pub fn class_of_stamp(curve: &Curve, stamp: u64) -> Result<Class, Refusal> {
    if stamp >= stamp_limit(curve.field) {
        return Err(115);
    }
    first_class(curve, 8 * stamp..8 * stamp + 8).ok_or(116)
}

#[cfg(test)]
mod tests {
    use super::*;
    use crate::field::{BENCH, WIDE};
    use crate::random::Random;
    use std::collections::HashSet;

    fn every_bench_curve() -> impl Iterator<Item = Curve> {
        (0..1 << 15).map(|bits| Curve::new(BENCH, bits >> 10, bits >> 5 & 31, bits & 31))
    }

    /// X + x and y, with what the definition asks of the two.
    fn is_class_of_stamp(curve: &Curve, stamp: u64, class: &Class) -> bool {
        let (x, y) = (class.u.coefficient(0), class.v.coefficient(0));
        let value = |y: u64| curve.field.square(y) ^ y;
        let has_root = |x: u64| curve.field.root_of_artin_schreier(curve.f.at(curve.field, x)).is_some();
        *class == Class::new(vec![x, 1], vec![y])
            && x / 8 == stamp
            && y % 2 == 0
            && value(y) == curve.f.at(curve.field, x)
            && !(8 * stamp..x).any(has_root)
    }

    fn has_no_class(curve: &Curve, stamp: u64) -> bool {
        (8 * stamp..8 * stamp + 8).all(|x| curve.point(x).is_none())
    }

    /// Every stamp on every curve of the bench field: its class by the definition, or 116. The classes on a curve differ.
    #[test]
    fn every_stamp_of_the_bench_field() {
        let mut without = 0;
        for curve in every_bench_curve() {
            let classes: Vec<Class> = (0..4)
                .filter_map(|stamp| match class_of_stamp(&curve, stamp) {
                    Ok(class) => {
                        assert!(is_class_of_stamp(&curve, stamp, &class) && curve.is_member(&class));
                        Some(class)
                    }
                    Err(refusal) => {
                        assert_eq!(refusal, 116);
                        assert!(has_no_class(&curve, stamp));
                        without += 1;
                        None
                    }
                })
                .collect();
            assert_eq!(classes.iter().collect::<HashSet<_>>().len(), classes.len());
        }
        // one of 128 stamps, and not of 256, since an even number of the eight has a root
        assert_eq!(without, 4 * 32768 / 128);
    }

    /// Stamps of GF(2^61), neighbours and drawn ones: the same, and no two have the same class.
    #[test]
    fn stamps_of_the_wide_field() {
        let mut random = Random::new(12);
        let mut without = 0;
        for _ in 0..10 {
            let curve = Curve::drawn(&mut random, WIDE);
            let drawn: Vec<u64> = (0..200).map(|_| random.number() >> 6).collect();
            let stamps: HashSet<u64> = (0..200).chain(drawn).collect();
            let answers = stamps.iter().map(|&stamp| (stamp, class_of_stamp(&curve, stamp)));
            let (accepted, refused): (Vec<_>, Vec<_>) = answers.partition(|(_, answer)| answer.is_ok());
            let classes: HashSet<Class> = accepted.iter().map(|(_, class)| class.clone().unwrap()).collect();
            assert_eq!(classes.len(), accepted.len());
            assert!(accepted.iter().all(|(stamp, class)| is_class_of_stamp(
                &curve,
                *stamp,
                class.as_ref().unwrap()
            )));
            assert!(refused.iter().all(|(stamp, answer)| *answer == Err(116) && has_no_class(&curve, *stamp)));
            without += refused.len();
        }
        assert!(without > 10);
    }

    /// The sum of f over x + c for the eight c is the product of the seven c other than 0, whatever f and x. Its trace is 0
    /// in both fields: the number of candidates with a root is even, so that the eighth is never the only one.
    #[test]
    fn candidates_with_a_root_are_even_in_number() {
        for field in [BENCH, WIDE] {
            assert!(field.root_of_artin_schreier((1..8).fold(1, |product, c| field.mul(product, c))).is_some());
        }
        let mut random = Random::new(13);
        let wide = (0..200).map(|_| Curve::drawn(&mut random, WIDE));
        for curve in every_bench_curve().step_by(37).chain(wide) {
            for stamp in [0, 1, 2, 3, stamp_limit(curve.field) - 1] {
                let with_root = (8 * stamp..8 * stamp + 8).filter(|&x| curve.point(x).is_some());
                assert_eq!(with_root.count() % 2, 0);
            }
        }
    }

    /// The edges of the stamp at both degrees: 2^(d-3) - 1 has a class on f = x^7 and on f = x^7 + 1, and from 2^(d-3) on all
    /// are 115.
    #[test]
    fn limits_of_stamps() {
        for (field, limit) in [(BENCH, 4), (WIDE, 1 << 58)] {
            for curve in [Curve::new(field, 0, 0, 0), Curve::new(field, 0, 0, 1)] {
                let last = class_of_stamp(&curve, limit - 1).expect("the last stamp has a class");
                assert!(is_class_of_stamp(&curve, limit - 1, &last));
                for stamp in [limit, limit + 1, 2 * limit, 8 * limit, 1 << 61, 1 << 63, u64::MAX] {
                    assert_eq!(class_of_stamp(&curve, stamp), Err(115));
                }
            }
        }
    }

    /// Stamps worked out by hand, and stamps that are refused. 115 comes before 116: on the curves with a stamp 0 that is
    /// refused, the stamp 2^(d-3), whose candidates are those of 0 but for bits that no element has, is 115.
    #[test]
    fn stamps_by_hand() {
        for field in [BENCH, WIDE] {
            // f(0) = 0 on x^7; on x^7 + 1 it is 1, which has no root, and f(1) = 0
            let class = |x, y| Ok(Class::new(vec![x, 1], vec![y]));
            assert_eq!(class_of_stamp(&Curve::new(field, 0, 0, 0), 0), class(0, 0));
            assert_eq!(class_of_stamp(&Curve::new(field, 0, 0, 1), 0), class(1, 0));
            // f(0) = t^2 + t, whose roots are t and t + 1
            assert_eq!(class_of_stamp(&Curve::new(field, 0, 0, 6), 0), class(0, 2));
        }
        for (curve, stamp) in [(Curve::new(BENCH, 12, 0, 0), 1), (Curve::new(WIDE, 0, 0, 0), 785)] {
            assert_eq!(class_of_stamp(&curve, stamp), Err(116));
        }
        for curve in [Curve::new(BENCH, 4, 5, 1), Curve::new(WIDE, 0, 1, 1)] {
            assert_eq!(class_of_stamp(&curve, 0), Err(116));
            assert_eq!(class_of_stamp(&curve, stamp_limit(curve.field)), Err(115));
        }
    }
}
