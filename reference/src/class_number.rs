//! The number of classes of a curve, from numbers of its points: no class is listed.
//!
//! Over GF(q) the q-th power of every coefficient is a map of the classes. The sum of the k-th powers of its six eigenvalues
//! is q^k + 1 less the number of points over GF(q^k), and the number of classes is the value at 1 of its polynomial
//! T^6 + a1 T^5 + a2 T^4 + a3 T^3 + q a2 T^2 + q^2 a1 T + q^3 (Weil).

use crate::field::{Field, BENCH};
use crate::jacobian::Curve;
use crate::polynomial::Polynomial;

/// GF(32), GF(32^2) and GF(32^3).
const TOWER: [Field; 3] = [
    BENCH,
    Field { degree: 10, modulus: 1 << 10 | 1 << 3 | 1 },
    Field { degree: 15, modulus: 1 << 15 | 1 << 1 | 1 },
];

/// The number of points of y^2 + y = f(x) over a field, that at infinity included: there are two y with y^2 + y = c where
/// the sum of the conjugates of c is 0, and else none.
pub fn points(f: &Polynomial, field: Field) -> i64 {
    let trace = |c| {
        let next = |(sum, power): (u64, u64), _| (sum ^ power, field.square(power));
        (0..field.degree).fold((0, c), next).0
    };
    1 + 2 * (0..1 << field.degree).filter(|&x| trace(f.at(field, x)) == 0).count() as i64
}

/// a1, a2 and a3 from the sums of the first, second and third powers of the eigenvalues, by Newton's identities.
pub fn from_power_sums(sums: [i64; 3]) -> [i64; 3] {
    let a1 = -sums[0];
    let a2 = -(sums[1] + a1 * sums[0]) / 2;
    let a3 = -(sums[2] + a1 * sums[1] + a2 * sums[0]) / 3;
    [a1, a2, a3]
}

/// The value at 1 of the polynomial over GF(q).
pub fn value_at_one(q: i64, [a1, a2, a3]: [i64; 3]) -> i64 {
    1 + a1 + a2 + a3 + q * a2 + q * q * a1 + q * q * q
}

/// The polynomial with the coefficients of the bench field taken into a field over it: t goes to a root of t^5 + t^2 + 1.
fn lifted(f: &Polynomial, field: Field) -> Polynomial {
    let modulus = Polynomial::new((0..=BENCH.degree).map(|i| (BENCH.modulus >> i & 1) as u64).collect());
    let root = (0..1 << field.degree).find(|&a| modulus.at(field, a) == 0).expect("the field has GF(32) in it");
    let bits = |c: u64| Polynomial::new((0..BENCH.degree).map(|i| c >> i & 1).collect());
    f.map(|c| bits(c).at(field, root))
}

/// The number of classes of a curve over the bench field.
pub fn class_number(curve: &Curve) -> usize {
    assert_eq!(curve.field, BENCH);
    let sum = |field: Field| (1 << field.degree) + 1 - points(&lifted(&curve.f, field), field);
    value_at_one(1 << BENCH.degree, from_power_sums(TOWER.map(sum))) as usize
}

#[cfg(test)]
mod tests {
    use super::*;
    use crate::bench_classes::all_classes;
    use crate::random::Random;

    /// The points are those that trying every pair finds.
    #[test]
    fn points_by_trial() {
        for field in [Field { degree: 2, modulus: 0b111 }, BENCH, TOWER[1]] {
            let f = Polynomial::new(vec![1, 2, 0, 3, 0, 0, 0, 1]);
            let elements = || 0..1u64 << field.degree;
            let on_curve = |x, y| field.square(y) ^ y == f.at(field, x);
            let tried = elements().map(|x| elements().filter(|&y| on_curve(x, y)).count() as i64).sum::<i64>();
            assert_eq!(points(&f, field), 1 + tried);
        }
    }

    /// Curves A and B have 32,417 and 33,121 classes, and the number is that of the list also with all seven coefficients.
    #[test]
    fn numbers_of_classes() {
        assert_eq!(class_number(&Curve::new(BENCH, 0, 0, 0)), 32417);
        assert_eq!(class_number(&Curve::new(BENCH, 0, 0, 1)), 33121);
        let mut random = Random::new(10);
        for _ in 0..3 {
            let curve = Curve::with_all(BENCH, [0; 7].map(|_: u64| random.element(BENCH)));
            assert_eq!(class_number(&curve), all_classes(&curve).len());
        }
    }
}
