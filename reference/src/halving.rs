//! Halves, found from the group and by no halving rule by degree; the proved crates halve by such rules. Whatever way a half
//! was found, it is held to the definition: a reduced class whose double, by Cantor's rule, is the class given (`is_half`). The
//! ways, each for the curves that it fits:
//!
//! - Any curve: from its answer. The half is drawn first, and its double is the class that is asked about.
//! - Any curve: by solving. For a class D of degree 3 a function of the curve with the divisor D + 2E is sought, by linear
//!   equations on the square roots of its coefficients; then 2 (-E) = D. Where that fails, as for every D of lower degree,
//!   it is tried on D + 2T for one class T after another, and T taken away again (`half`).
//! - The bench field: by looking. All classes are doubled, and the half is the one whose double is the class given
//!   (`halves_from_doubles`).
//! - The bench field: by the order of the group. The number n of classes is odd, so the half is the multiple by (n + 1) / 2.
//! - A curve with coefficients in GF(2), over either field: squaring every coefficient is a map F of the group that
//!   satisfies F^6 + a1 F^5 + a2 F^4 + a3 F^3 + 2 a2 F^2 + 4 a1 F + 8 = 0, where the a are got from the numbers of
//!   points over GF(2), GF(4) and GF(8). On these curves all a are even, so F^6 is twice a combination of smaller
//!   powers, and a half is that combination after F^-6.

use crate::bench_classes::all_classes;
use crate::class_number::{from_power_sums, points};
use crate::field::Field;
use crate::jacobian::{Class, Curve};
use crate::polynomial::Polynomial;
use crate::random::Random;
use std::collections::HashMap;

/// Is `claimed` the half of `class`?
pub fn is_half(curve: &Curve, claimed: &Class, class: &Class) -> bool {
    curve.is_member(claimed) && curve.double(claimed) == *class
}

/// The class -E where a function of the curve, a u + b (y + v) with a and b of degree at most 1, has the divisor
/// [u, v] + 2E and b no root on E. It is sought for u of degree 3 alone.
///
/// The norm of a u + b (y + v), divided by u, is n = a^2 u + a b + b^2 w with w = (v^2 + v + f) / u of degree 4. It is a
/// square where its coefficients of x^5, x^3 and x vanish. The first two are sums of squares, which give a1 and a0 from b1
/// and b0; in the third the products cancel, so that it is b0^2 p + b1^2 q = 0.
fn generic_half(curve: &Curve, class: &Class) -> Option<Class> {
    let k = curve.field;
    let Class { u, v } = class;
    if class.degree() != 3 {
        return None;
    }
    let w = v.square(k).add(v).add(&curve.f).exact_quotient(k, u);
    let [root_u1, root_w1, root_w3] =
        [u.coefficient(1), w.coefficient(1), w.coefficient(3)].map(|c| k.square_root(c));
    // a1 = r b1 and a0 = r b0 + s b1
    let (r, s) = (root_w3, root_w1 ^ k.mul(root_u1, root_w3));
    // a0^2 u1 + a0 b1 + a1 b0 + b0^2 w1 = b0^2 p + b1^2 q
    let p = k.mul(k.square(r), u.coefficient(1)) ^ w.coefficient(1);
    let q = k.mul(k.square(s), u.coefficient(1)) ^ s;
    let (b0, b1) = if p == 0 && q == 0 { (1, 0) } else { (k.square_root(q), k.square_root(p)) };
    let (a0, a1) = (k.mul(r, b0) ^ k.mul(s, b1), k.mul(r, b1));
    let (a, b) = (Polynomial::new(vec![a0, a1]), Polynomial::new(vec![b0, b1]));

    let n = a.square(k).mul(k, u).add(&a.mul(k, &b)).add(&b.square(k).mul(k, &w)).monic(k);
    let e = Polynomial::new(n.coefficients().iter().step_by(2).map(|&c| k.square_root(c)).collect());
    if e.is_zero() || e.square(k) != n {
        return None;
    }
    // on E: y = v + a u / b
    let (g, inverse, _) = Polynomial::extended_gcd(k, &b, &e);
    if g != Polynomial::one() {
        return None;
    }
    let y = v.add(&a.mul(k, u).mul(k, &inverse)).remainder(k, &e);
    let half = curve.opposite(&Class { u: e, v: y });
    if is_half(curve, &half, class) {
        Some(half)
    } else {
        None
    }
}

/// The half of a class, on any curve.
pub fn half(curve: &Curve, class: &Class) -> Class {
    if *class == Class::neutral() {
        return class.clone();
    }
    let mut random = Random::new(9);
    let points = (0..64).filter_map(|_| curve.point(random.element(curve.field)));
    let steps = std::iter::once(Class::neutral()).chain(points).chain(std::iter::repeat(class.clone()));
    let mut shift = Class::neutral();
    for step in steps.take(10_000) {
        shift = curve.sum(&shift, &step);
        if let Some(half) = generic_half(curve, &curve.sum(class, &curve.double(&shift))) {
            let half = curve.difference(&half, &shift);
            assert!(is_half(curve, &half, class));
            return half;
        }
    }
    panic!("no half found for {class:?} on {curve:?}")
}

/// The half of each class of a curve over the bench field, read off the doubles of all of them.
pub fn halves_from_doubles(curve: &Curve, classes: &[Class]) -> HashMap<Class, Class> {
    let halves: HashMap<Class, Class> = classes.iter().map(|class| (curve.double(class), class.clone())).collect();
    assert_eq!(halves.len(), classes.len(), "no two classes have the same double");
    halves
}

/// Halves on a curve over the bench field, from the number of its classes.
pub struct HalfByOrder<'a> {
    curve: &'a Curve,
    factor: u128,
}

impl HalfByOrder<'_> {
    pub fn new(curve: &Curve) -> HalfByOrder<'_> {
        let order = all_classes(curve).len() as u128;
        assert!(order % 2 == 1, "there is no class of order 2");
        HalfByOrder { curve, factor: order / 2 + 1 }
    }

    pub fn half(&self, class: &Class) -> Class {
        self.curve.multiple(self.factor, class)
    }
}

/// Halves on a curve with coefficients in GF(2), from the equation of the squaring map.
pub struct HalfByFrobenius<'a> {
    curve: &'a Curve,
    a: [i64; 3],
}

/// GF(2), GF(4) and GF(8).
const SMALL_FIELDS: [Field; 3] =
    [Field { degree: 1, modulus: 0b10 }, Field { degree: 2, modulus: 0b111 }, Field { degree: 3, modulus: 0b1011 }];

impl HalfByFrobenius<'_> {
    pub fn new(curve: &Curve) -> HalfByFrobenius<'_> {
        assert!(curve.f.coefficients().iter().all(|&c| c < 2));
        // the sums of powers of F's six eigenvalues: 2^k + 1 less the number of points
        let a = from_power_sums(SMALL_FIELDS.map(|field| (1 << field.degree) + 1 - points(&curve.f, field)));
        assert!(a.iter().all(|a| a % 2 == 0), "there is no class of order 2");
        HalfByFrobenius { curve, a }
    }

    fn signed_multiple(&self, n: i64, class: &Class) -> Class {
        let multiple = self.curve.multiple(n.unsigned_abs() as u128, class);
        if n < 0 {
            self.curve.opposite(&multiple)
        } else {
            multiple
        }
    }

    /// -(a1/2 F^5 + a2/2 F^4 + a3/2 F^3 + a2 F^2 + 2 a1 F + 4) F^-6.
    pub fn half(&self, class: &Class) -> Class {
        let [a1, a2, a3] = self.a;
        let mut power = class.clone();
        let mut half = Class::neutral();
        for factor in [a1 / 2, a2 / 2, a3 / 2, a2, 2 * a1, 4] {
            power = power.map(|c| self.curve.field.square_root(c));
            half = self.curve.sum(&half, &self.signed_multiple(-factor, &power));
        }
        half
    }
}

#[cfg(test)]
mod tests {
    use super::*;
    use crate::class_number::value_at_one;
    use crate::field::{BENCH, WIDE};

    fn curves_over_two(field: Field) -> Vec<Curve> {
        (0..8).map(|i| Curve::new(field, i & 1, i >> 1 & 1, i >> 2)).collect()
    }

    /// The number of classes over the bench field, from the points over GF(2), GF(4) and GF(8) alone, is that of the
    /// list: the value at 1 of the polynomial whose roots are the fifth powers of F's eigenvalues.
    #[test]
    fn numbers_of_classes() {
        for curve in curves_over_two(BENCH) {
            let [a1, a2, a3] = HalfByFrobenius::new(&curve).a;
            let a = [a1, a2, a3, 2 * a2, 4 * a1, 8];
            let mut sums: Vec<i64> = vec![6];
            for k in 1..=15 {
                let last = if k <= 6 { k as i64 * a[k - 1] } else { 0 };
                sums.push(-last - (1..k.min(7)).map(|i| a[i - 1] * sums[k - i]).sum::<i64>());
            }
            let number = value_at_one(32, from_power_sums([sums[5], sums[10], sums[15]]));
            assert_eq!(all_classes(&curve).len() as i64, number);
        }
    }

    /// Examples 4 to 7 of document 01.
    #[test]
    fn examples() {
        let class = |u: &[u64], v: &[u64]| Class::new(u.to_vec(), v.to_vec());
        let on_b = [
            class(&[1, 1], &[]),
            class(&[1, 0, 1], &[1, 1]),
            class(&[1, 0, 1, 1], &[]),
            class(&[1, 1, 1, 1], &[0, 1]),
        ];
        for field in [BENCH, WIDE] {
            let (a, b) = (Curve::new(field, 0, 0, 0), Curve::new(field, 0, 0, 1));
            assert_eq!(HalfByFrobenius::new(&a).half(&Class::neutral()), Class::neutral());
            for pair in on_b.windows(2) {
                assert!(is_half(&b, &pair[0], &pair[1]));
                assert!(!is_half(&b, &pair[1], &pair[0]));
                assert_eq!(HalfByFrobenius::new(&b).half(&pair[1]), pair[0]);
            }
        }
    }

    /// Two ways to a half, and its double, on classes of every degree over the bench field.
    #[test]
    fn halves_on_the_bench_field() {
        for curve in curves_over_two(BENCH) {
            let (by_order, by_frobenius) = (HalfByOrder::new(&curve), HalfByFrobenius::new(&curve));
            let classes = all_classes(&curve);
            // the list starts with degree 0 and degree 1; the stride takes some of each other degree
            for class in classes.iter().take(40).chain(classes.iter().skip(40).step_by(229)) {
                let half = by_order.half(class);
                assert!(is_half(&curve, &half, class));
                assert_eq!(by_frobenius.half(class), half);
            }
        }
    }

    #[test]
    fn halves_on_other_bench_curves() {
        let mut random = Random::new(5);
        for _ in 0..3 {
            let curve = Curve::with_all(BENCH, [0; 7].map(|_: u64| random.element(BENCH)));
            let by_order = HalfByOrder::new(&curve);
            for class in all_classes(&curve).iter().step_by(311) {
                assert!(is_half(&curve, &by_order.half(class), class));
            }
        }
    }

    /// The half on any curve is that from the number of classes; bench curves with many points and with few.
    #[test]
    fn halves_on_any_bench_curve() {
        let mut random = Random::new(7);
        for i in 0..12 {
            let curve = if i < 4 {
                Curve::new(BENCH, 0, i & 1, i >> 1)
            } else {
                Curve::with_all(BENCH, [0; 7].map(|_: u64| random.element(BENCH)))
            };
            let classes = all_classes(&curve);
            for class in classes.iter().take(40).chain(classes.iter().skip(40).step_by(409)) {
                assert!(is_half(&curve, &half(&curve, class), class));
            }
        }
    }

    /// The half on any curve, of classes whose half is known, on the wide field.
    #[test]
    fn halves_of_doubles_on_the_wide_field() {
        let mut random = Random::new(8);
        for _ in 0..20 {
            let curve = Curve::with_all(WIDE, [0; 7].map(|_: u64| random.element(WIDE)));
            let mut class = Class::neutral();
            for _ in 0..5 {
                assert_eq!(half(&curve, &curve.double(&class)), class);
                class = curve.sum(&class, &curve.point(random.element(WIDE)).unwrap_or_else(Class::neutral));
            }
        }
    }

    /// Classes of small order over the wide field: every class with coefficients 0 and 1 on a curve with such.
    #[test]
    fn halves_of_small_order() {
        for curve in curves_over_two(WIDE) {
            let mut number = 0;
            for degree in 0..4 {
                for (u, v) in (0..1 << degree).flat_map(|u| (0..1 << degree).map(move |v| (u, v))) {
                    let bits = |n: u64| (0..degree).map(|i| n >> i & 1).collect::<Vec<u64>>();
                    let class = Class::new([bits(u), vec![1]].concat(), bits(v));
                    if curve.is_member(&class) {
                        assert!(is_half(&curve, &half(&curve, &class), &class));
                        number += 1;
                    }
                }
            }
            assert!(number > 1);
        }
    }

    #[test]
    fn halves_on_the_wide_field() {
        let mut random = Random::new(6);
        for curve in curves_over_two(WIDE) {
            let by_frobenius = HalfByFrobenius::new(&curve);
            let mut class = Class::neutral();
            for _ in 0..20 {
                let point = curve.point(random.element(WIDE)).unwrap_or_else(Class::neutral);
                class = curve.sum(&class, &point);
                let half = by_frobenius.half(&class);
                assert!(is_half(&curve, &half, &class));
            }
        }
    }
}
