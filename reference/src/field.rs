//! The fields (document 01, 'The fields'): an element is a number below 2^d, bit i the coefficient of t^i.
//!
//! The arithmetic is that of polynomials over GF(2), held as the bits of a `u128`: schoolbook product, then long
//! division by the modulus. The square root is repeated squaring, the inverse is Euclid's rule. Roots of y^2 + y = c
//! are tried for in the bench field, and over GF(2^61) linear equations are solved for them; the proved crates take
//! sums of powers of c.

use std::sync::OnceLock;

/// GF(2^degree), the polynomials over GF(2) modulo `modulus`.
#[derive(Clone, Copy, Debug, PartialEq, Eq)]
pub struct Field {
    pub degree: u32,
    pub modulus: u128,
}

/// t^5 + t^2 + 1.
pub const BENCH: Field = Field { degree: 5, modulus: 1 << 5 | 1 << 2 | 1 };

/// t^61 + t^5 + t^2 + t + 1.
pub const WIDE: Field = Field { degree: 61, modulus: 1 << 61 | 1 << 5 | 1 << 2 | 1 << 1 | 1 };

/// The degree of a polynomial over GF(2) that is not 0.
fn degree(p: u128) -> u32 {
    127 - p.leading_zeros()
}

/// The product of two polynomials over GF(2), of degrees that add up to less than 128.
fn polynomial_product(a: u128, b: u128) -> u128 {
    let powers = (0..128 - b.leading_zeros()).filter(|&i| b >> i & 1 == 1);
    powers.fold(0, |product, i| product ^ a << i)
}

/// Quotient and remainder of `a` by `b`, which is not 0.
fn polynomial_division(a: u128, b: u128) -> (u128, u128) {
    let (mut quotient, mut rest) = (0, a);
    while rest != 0 && degree(rest) >= degree(b) {
        let shift = degree(rest) - degree(b);
        quotient |= 1 << shift;
        rest ^= b << shift;
    }
    (quotient, rest)
}

impl Field {
    /// The field of a degree that document 01 has, which is 5 or 61.
    pub fn of_degree(degree: u8) -> Option<Field> {
        match degree {
            5 => Some(BENCH),
            61 => Some(WIDE),
            _ => None,
        }
    }

    pub fn contains(&self, a: u64) -> bool {
        a >> self.degree == 0
    }

    pub fn add(&self, a: u64, b: u64) -> u64 {
        a ^ b
    }

    pub fn mul(&self, a: u64, b: u64) -> u64 {
        polynomial_division(polynomial_product(a as u128, b as u128), self.modulus).1 as u64
    }

    pub fn square(&self, a: u64) -> u64 {
        self.mul(a, a)
    }

    /// Squaring d times gives an element back, so squaring d - 1 times gives its square root.
    pub fn square_root(&self, a: u64) -> u64 {
        (1..self.degree).fold(a, |root, _| self.square(root))
    }

    /// The inverse by Euclid's rule on `a` and the modulus, where the rule ends in 1. For 0 it ends in the modulus.
    pub fn inverse(&self, a: u64) -> Option<u64> {
        // in each row (r, s), r and s a differ by a multiple of the modulus
        let (mut upper, mut lower) = ((self.modulus, 0), (a as u128, 1));
        while lower.0 != 0 {
            let (quotient, rest) = polynomial_division(upper.0, lower.0);
            let next = (rest, upper.1 ^ polynomial_product(quotient, lower.1));
            upper = lower;
            lower = next;
        }
        (upper.0 == 1).then_some(upper.1 as u64)
    }

    /// The inverse of a divisor that is not 0.
    pub fn reciprocal(&self, divisor: u64) -> u64 {
        self.inverse(divisor).expect("the divisor is not 0, and the modulus is irreducible")
    }

    /// The root y of y^2 + y = c whose lowest bit is 0, where there is one; the other root is y + 1.
    pub fn even_root_of_artin_schreier(&self, c: u64) -> Option<u64> {
        if *self == WIDE {
            static EQUATIONS: OnceLock<Equations> = OnceLock::new();
            return EQUATIONS.get_or_init(|| Equations::new(WIDE)).solution(c);
        }
        assert!(self.degree < 16, "the elements are few enough to try them all");
        (0..1 << self.degree).step_by(2).find(|&y| self.square(y) ^ y == c)
    }

    /// A root y of y^2 + y = c where there is one: of the two the one for which y = z^2 + z has a root too. In a field of
    /// odd degree that is so of one of them, since 1 = z^2 + z has none. The stored cases depend on which is taken.
    pub fn root_of_artin_schreier(&self, c: u64) -> Option<u64> {
        let even = self.even_root_of_artin_schreier(c)?;
        Some(if self.even_root_of_artin_schreier(even).is_some() { even } else { even ^ 1 })
    }
}

/// The equations y^2 + y = c over GF(2) in the bits of y but the lowest, after Gaussian elimination: rows y^2 + y and y,
/// with falling leading bits of y^2 + y.
struct Equations {
    rows: Vec<(u64, u64)>,
}

impl Equations {
    fn new(field: Field) -> Equations {
        let mut equations = Equations { rows: vec![] };
        for y in (1..field.degree).map(|i| 1 << i) {
            let row = equations.reduced((field.square(y) ^ y, y));
            assert_ne!(row.0, 0, "y^2 + y is 0 for 0 and 1 alone");
            equations.rows.push(row);
            equations.rows.sort_by(|a, b| b.cmp(a));
        }
        equations
    }

    /// A row with each row added whose leading bit is met on the way down.
    fn reduced(&self, row: (u64, u64)) -> (u64, u64) {
        let add = |sum: (u64, u64), row: &(u64, u64)| {
            if sum.0 ^ row.0 < sum.0 {
                (sum.0 ^ row.0, sum.1 ^ row.1)
            } else {
                sum
            }
        };
        self.rows.iter().fold(row, add)
    }

    fn solution(&self, c: u64) -> Option<u64> {
        let (rest, y) = self.reduced((c, 0));
        (rest == 0).then_some(y)
    }
}

/// What a checked call answers.
#[derive(Clone, Copy, Debug, PartialEq, Eq)]
pub enum Answer {
    Element(u64),
    /// Of `quadratic_root` alone.
    NoRoot,
    Refused(u32),
}

/// The checks of every call on elements, in their order: 106 for the degree, then 110 for the numbers.
fn checked_answer(degree: u8, numbers: &[u64], call: impl Fn(Field) -> Answer) -> Answer {
    match Field::of_degree(degree) {
        None => Answer::Refused(106),
        Some(field) if numbers.iter().any(|&n| !field.contains(n)) => Answer::Refused(110),
        Some(field) => call(field),
    }
}

/// The same for a call that has an element for all numbers that pass.
fn checked(degree: u8, numbers: &[u64], call: impl Fn(Field) -> u64) -> Answer {
    checked_answer(degree, numbers, |field| Answer::Element(call(field)))
}

pub fn sum(degree: u8, a: u64, b: u64) -> Answer {
    checked(degree, &[a, b], |field| field.add(a, b))
}

pub fn product(degree: u8, a: u64, b: u64) -> Answer {
    checked(degree, &[a, b], |field| field.mul(a, b))
}

pub fn square(degree: u8, a: u64) -> Answer {
    checked(degree, &[a], |field| field.square(a))
}

pub fn square_root(degree: u8, a: u64) -> Answer {
    checked(degree, &[a], |field| field.square_root(a))
}

/// The root of y^2 + y = a with lowest bit 0 (document 02, request 2).
pub fn quadratic_root(degree: u8, a: u64) -> Answer {
    let root = |field: Field| field.even_root_of_artin_schreier(a);
    checked_answer(degree, &[a], |field| root(field).map_or(Answer::NoRoot, Answer::Element))
}

/// 117 where there is no inverse (document 02, request 3).
pub fn inverse(degree: u8, a: u64) -> Answer {
    checked_answer(degree, &[a], |field| field.inverse(a).map_or(Answer::Refused(117), Answer::Element))
}

#[cfg(test)]
mod tests {
    use super::*;
    use crate::random::Random;

    /// No polynomial of degree 1 to d/2 divides the modulus: of the bench field by trial of all of them; of the
    /// other by Rabin's test, for a prime degree: t^(2^61) = t, and t^2 - t is prime to the modulus.
    #[test]
    fn moduli_are_irreducible() {
        for p in 2..8 {
            assert_ne!(polynomial_division(BENCH.modulus, p).1, 0);
        }
        let t = 2;
        assert_eq!((0..61).fold(t, |a, _| WIDE.square(a)), t);
        assert_ne!(polynomial_division(WIDE.modulus, 2).1, 0);
        assert_ne!(polynomial_division(WIDE.modulus, 3).1, 0);
    }

    #[test]
    fn products_by_hand() {
        // t^4 t = t^5 = t^2 + 1, and t^60 t = t^61 = t^5 + t^2 + t + 1
        assert_eq!(BENCH.mul(16, 2), 5);
        assert_eq!(WIDE.mul(1 << 60, 2), 0b100111);
        assert_eq!(BENCH.mul(0b11, 0b11), 0b101);
    }

    fn laws(field: Field, a: u64, b: u64, c: u64) {
        assert!(field.contains(field.mul(a, b)));
        assert_eq!(field.mul(a, b), field.mul(b, a));
        assert_eq!(field.mul(field.mul(a, b), c), field.mul(a, field.mul(b, c)));
        assert_eq!(field.mul(a, b ^ c), field.mul(a, b) ^ field.mul(a, c));
        assert_eq!(field.mul(a, 1), a);
    }

    fn roots_and_inverses(field: Field, a: u64) {
        assert_eq!(field.square(field.square_root(a)), a);
        assert_eq!(field.square_root(field.square(a)), a);
        assert_eq!(field.inverse(a).is_some(), a != 0);
        assert!(field.inverse(a).map_or(true, |b| field.contains(b) && field.mul(a, b) == 1));
    }

    /// Trying every element of the bench field: each but 0 has one whose product with it is 1, and only that one.
    #[test]
    fn inverses_of_the_bench_field() {
        for a in 0..32 {
            let found: Vec<u64> = (0..32).filter(|&b| BENCH.mul(a, b) == 1).collect();
            assert_eq!(found, BENCH.inverse(a).into_iter().collect::<Vec<u64>>());
            assert_eq!(found.len(), usize::from(a != 0));
        }
    }

    #[test]
    fn bench_field_whole() {
        for a in 0..32 {
            roots_and_inverses(BENCH, a);
            for b in 0..32 {
                for c in 0..32 {
                    laws(BENCH, a, b, c);
                }
            }
        }
    }

    #[test]
    fn wide_field_at_random() {
        let mut random = Random::new(1);
        for _ in 0..2000 {
            let [a, b, c] = [0; 3].map(|_: u64| random.element(WIDE));
            laws(WIDE, a, b, c);
            roots_and_inverses(WIDE, a);
        }
        roots_and_inverses(WIDE, 0);
    }

    /// The sum of the conjugates, which says whether y^2 + y = c has a root: it has where this is 0 (Hilbert's theorem 90).
    fn trace(field: Field, c: u64) -> u64 {
        (1..field.degree).fold((c, c), |(sum, power), _| (sum ^ field.square(power), field.square(power))).0
    }

    /// The roots of y^2 + y = c are held to the equation, and where there are none to the trace.
    fn artin_schreier(field: Field, c: u64) {
        let even = field.even_root_of_artin_schreier(c);
        let root = field.root_of_artin_schreier(c);
        assert_eq!(even.is_some(), trace(field, c) == 0);
        assert_eq!(root.is_some(), even.is_some());
        for y in even.into_iter().chain(root) {
            assert!(field.contains(y));
            assert_eq!(field.square(y) ^ y, c);
        }
        assert_eq!(even.unwrap_or(0) & 1, 0);
        assert_eq!(trace(field, root.unwrap_or(0)), 0);
    }

    #[test]
    fn artin_schreier_roots_of_the_bench_field() {
        (0..32).for_each(|c| artin_schreier(BENCH, c));
        let with_root = (0..32).filter(|&c| BENCH.even_root_of_artin_schreier(c).is_some());
        assert_eq!(with_root.count(), 16);
    }

    /// Elements of which half have a root, and others that are made to have one.
    #[test]
    fn artin_schreier_roots_of_the_wide_field() {
        let mut random = Random::new(2);
        for _ in 0..2000 {
            let y = random.element(WIDE);
            artin_schreier(WIDE, y);
            let c = WIDE.square(y) ^ y;
            artin_schreier(WIDE, c);
            assert_eq!(WIDE.even_root_of_artin_schreier(c), Some(y & !1));
        }
        // every power of t, the lowest and the highest bit alone
        (0..61).for_each(|i| artin_schreier(WIDE, 1 << i));
    }

    /// The equations give over the bench field what trying every element gives.
    #[test]
    fn equations_of_the_bench_field() {
        let equations = Equations::new(BENCH);
        for c in 0..32 {
            assert_eq!(equations.solution(c), BENCH.even_root_of_artin_schreier(c));
        }
    }

    #[test]
    fn quadratic_roots_by_hand() {
        for degree in [5, 61] {
            // t^2 + t has the roots t and t + 1; 1 has trace 1, the degrees being odd
            assert_eq!(quadratic_root(degree, 0), Answer::Element(0));
            assert_eq!(quadratic_root(degree, 1), Answer::NoRoot);
            assert_eq!(quadratic_root(degree, 0b110), Answer::Element(0b10));
            assert_eq!(quadratic_root(degree, 0b111), Answer::NoRoot);
        }
    }

    #[test]
    fn refusals_in_order() {
        assert_eq!(sum(6, 64, 0), Answer::Refused(106));
        assert_eq!(sum(5, 31, 31), Answer::Element(0));
        assert_eq!(sum(5, 31, 32), Answer::Refused(110));
        assert_eq!(product(61, 1 << 61, 0), Answer::Refused(110));
        assert_eq!(product(61, 0, 1 << 61), Answer::Refused(110));
        assert_eq!(square(5, 32), Answer::Refused(110));
        assert_eq!(square_root(62, 0), Answer::Refused(106));
        for degree in [5, 61] {
            assert_eq!(inverse(degree, 0), Answer::Refused(117));
            assert_eq!(inverse(degree, 1), Answer::Element(1));
            assert_eq!(inverse(degree, 1 << degree), Answer::Refused(110));
        }
        // where 106 and 117 could both be said, it is 106
        assert_eq!(inverse(6, 0), Answer::Refused(106));
        assert_eq!(inverse(0, 0), Answer::Refused(106));
        assert_eq!(quadratic_root(4, 32), Answer::Refused(106));
        assert_eq!(quadratic_root(5, 32), Answer::Refused(110));
        assert_eq!(quadratic_root(61, 1 << 61), Answer::Refused(110));
    }
}
