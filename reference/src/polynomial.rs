//! Polynomials in x over a field: the coefficients by rising power, the last one not 0; no coefficient for 0.

use crate::field::Field;

#[derive(Clone, Debug, PartialEq, Eq, Hash, PartialOrd, Ord)]
pub struct Polynomial(Vec<u64>);

impl Polynomial {
    /// The polynomial with these coefficients, by rising power.
    pub fn new(mut coefficients: Vec<u64>) -> Polynomial {
        while coefficients.last() == Some(&0) {
            coefficients.pop();
        }
        Polynomial(coefficients)
    }

    pub fn zero() -> Polynomial {
        Polynomial(vec![])
    }

    pub fn one() -> Polynomial {
        Polynomial::constant(1)
    }

    pub fn constant(c: u64) -> Polynomial {
        Polynomial::new(vec![c])
    }

    pub fn is_zero(&self) -> bool {
        self.0.is_empty()
    }

    /// The degree; none for 0.
    pub fn degree(&self) -> Option<usize> {
        self.0.len().checked_sub(1)
    }

    /// Is the degree below n? That of 0 is below every number, 0 too.
    pub fn has_degree_below(&self, n: usize) -> bool {
        self.0.len() <= n
    }

    pub fn is_monic(&self) -> bool {
        self.0.last() == Some(&1)
    }

    /// The coefficient of x^i.
    pub fn coefficient(&self, i: usize) -> u64 {
        self.0.get(i).copied().unwrap_or(0)
    }

    pub fn coefficients(&self) -> &[u64] {
        &self.0
    }

    /// The polynomial with each coefficient replaced.
    pub fn map(&self, change: impl Fn(u64) -> u64) -> Polynomial {
        Polynomial::new(self.0.iter().map(|&c| change(c)).collect())
    }

    /// The value at a.
    pub fn at(&self, field: Field, a: u64) -> u64 {
        self.0.iter().rev().fold(0, |value, &c| field.mul(value, a) ^ c)
    }

    pub fn add(&self, other: &Polynomial) -> Polynomial {
        let n = self.0.len().max(other.0.len());
        Polynomial::new((0..n).map(|i| self.coefficient(i) ^ other.coefficient(i)).collect())
    }

    pub fn mul(&self, field: Field, other: &Polynomial) -> Polynomial {
        let mut product = vec![0; self.0.len() + other.0.len()];
        for (i, &a) in self.0.iter().enumerate() {
            for (j, &b) in other.0.iter().enumerate() {
                product[i + j] ^= field.mul(a, b);
            }
        }
        Polynomial::new(product)
    }

    pub fn square(&self, field: Field) -> Polynomial {
        self.mul(field, self)
    }

    pub fn scale(&self, field: Field, c: u64) -> Polynomial {
        self.map(|a| field.mul(a, c))
    }

    /// The multiple by a constant whose leading coefficient is 1; 0 stays 0.
    pub fn monic(&self, field: Field) -> Polynomial {
        match self.0.last() {
            None => Polynomial::zero(),
            Some(&leading) => self.scale(field, field.reciprocal(leading)),
        }
    }

    /// Quotient and remainder by a divisor other than 0.
    pub fn divide(&self, field: Field, divisor: &Polynomial) -> (Polynomial, Polynomial) {
        let n = divisor.degree().expect("the divisor is not 0");
        let inverse = field.reciprocal(divisor.0[n]);
        let mut rest = self.0.clone();
        let mut quotient = vec![0; (rest.len() + 1).saturating_sub(divisor.0.len())];
        for i in (0..quotient.len()).rev() {
            let q = field.mul(rest[i + n], inverse);
            quotient[i] = q;
            for (j, &d) in divisor.0.iter().enumerate() {
                rest[i + j] ^= field.mul(q, d);
            }
        }
        (Polynomial::new(quotient), Polynomial::new(rest))
    }

    pub fn remainder(&self, field: Field, divisor: &Polynomial) -> Polynomial {
        self.divide(field, divisor).1
    }

    /// The quotient by a polynomial that divides this one.
    pub fn exact_quotient(&self, field: Field, divisor: &Polynomial) -> Polynomial {
        let (quotient, rest) = self.divide(field, divisor);
        assert!(rest.is_zero(), "the division leaves no remainder");
        quotient
    }

    /// (g, s, t) with g = s a + t b, g the monic gcd of a and b; g is 0 where both are.
    pub fn extended_gcd(field: Field, a: &Polynomial, b: &Polynomial) -> (Polynomial, Polynomial, Polynomial) {
        let mut upper = (a.clone(), Polynomial::one(), Polynomial::zero());
        let mut lower = (b.clone(), Polynomial::zero(), Polynomial::one());
        while !lower.0.is_zero() {
            let (quotient, rest) = upper.0.divide(field, &lower.0);
            let next =
                (rest, upper.1.add(&quotient.mul(field, &lower.1)), upper.2.add(&quotient.mul(field, &lower.2)));
            upper = lower;
            lower = next;
        }
        let (g, s, t) = upper;
        let c = g.0.last().map_or(1, |&leading| field.reciprocal(leading));
        (g.scale(field, c), s.scale(field, c), t.scale(field, c))
    }
}

#[cfg(test)]
mod tests {
    use super::*;
    use crate::field::{BENCH, WIDE};
    use crate::random::Random;

    fn random_polynomial(random: &mut Random, field: Field, most: u64) -> Polynomial {
        let n = random.number() % (most + 1);
        Polynomial::new((0..n).map(|_| random.element(field)).collect())
    }

    #[test]
    fn division_and_euclid() {
        for field in [BENCH, WIDE] {
            let mut random = Random::new(3);
            for _ in 0..500 {
                let a = random_polynomial(&mut random, field, 9);
                let b = random_polynomial(&mut random, field, 5);
                if !b.is_zero() {
                    let (q, r) = a.divide(field, &b);
                    assert!(r.has_degree_below(b.degree().unwrap()));
                    assert_eq!(q.mul(field, &b).add(&r), a);
                }
                let (g, s, t) = Polynomial::extended_gcd(field, &a, &b);
                assert_eq!(s.mul(field, &a).add(&t.mul(field, &b)), g);
                if g.is_zero() {
                    assert!(a.is_zero() && b.is_zero());
                } else {
                    assert!(g.is_monic());
                    assert!(a.remainder(field, &g).is_zero());
                    assert!(b.remainder(field, &g).is_zero());
                }
            }
        }
    }

    #[test]
    fn value_at_a_point() {
        // x^2 + x + 1 at t over the bench field is t^2 + t + 1
        assert_eq!(Polynomial::new(vec![1, 1, 1]).at(BENCH, 2), 7);
        assert_eq!(Polynomial::zero().at(BENCH, 2), 0);
    }
}
