//! Curves y^2 + y = f(x) and their classes (document 01, 'Curves and classes'): membership, opposite, sum and
//! double, by Cantor's composition and reduction as the document writes them.

use crate::field::Field;
use crate::polynomial::Polynomial;
use crate::random::Random;

/// y^2 + y = f(x) over a field, f monic of degree 7.
#[derive(Clone, Debug, PartialEq, Eq)]
pub struct Curve {
    pub field: Field,
    pub f: Polynomial,
}

/// The pair [u, v]. A reduced class has u monic of degree at most 3, v of smaller degree, u a divisor of
/// v^2 + v + f.
#[derive(Clone, Debug, PartialEq, Eq, Hash, PartialOrd, Ord)]
pub struct Class {
    pub u: Polynomial,
    pub v: Polynomial,
}

impl Class {
    /// The pair of these coefficients, by rising power.
    pub fn new(u: Vec<u64>, v: Vec<u64>) -> Class {
        Class { u: Polynomial::new(u), v: Polynomial::new(v) }
    }

    /// [1, 0].
    pub fn neutral() -> Class {
        Class::new(vec![1], vec![])
    }

    /// The degree of u.
    pub fn degree(&self) -> usize {
        self.u.degree().expect("u is not 0")
    }

    /// The class with each coefficient replaced.
    pub fn map(&self, change: impl Fn(u64) -> u64) -> Class {
        Class { u: self.u.map(&change), v: self.v.map(&change) }
    }
}

/// What a composition and its reduction came to, and the number of reduction steps.
#[derive(Clone, Debug, PartialEq, Eq)]
pub struct Reduced {
    pub class: Class,
    pub steps: usize,
}

impl Curve {
    /// f = x^7 + f3 x^3 + f1 x + f0.
    pub fn new(field: Field, f3: u64, f1: u64, f0: u64) -> Curve {
        Curve::with_all(field, [f0, f1, 0, f3, 0, 0, 0])
    }

    /// f = x^7 + f6 x^6 + .. + f0, the seven given from f0 to f6.
    pub fn with_all(field: Field, lower: [u64; 7]) -> Curve {
        let mut coefficients = lower.to_vec();
        coefficients.push(1);
        Curve { field, f: Polynomial::new(coefficients) }
    }

    /// v^2 + v + f.
    fn norm(&self, v: &Polynomial) -> Polynomial {
        v.square(self.field).add(v).add(&self.f)
    }

    /// Is [u, v] a pair as composition makes it: u monic, v reduced, u a divisor of v^2 + v + f?
    fn is_pair(&self, class: &Class) -> bool {
        class.u.is_monic()
            && class.v.has_degree_below(class.degree())
            && self.norm(&class.v).remainder(self.field, &class.u).is_zero()
    }

    /// Membership: is it a reduced class of this curve?
    pub fn is_member(&self, class: &Class) -> bool {
        let coefficients = [class.u.coefficients(), class.v.coefficients()].concat();
        coefficients.iter().all(|&c| self.field.contains(c)) && class.u.has_degree_below(4) && self.is_pair(class)
    }

    pub fn opposite(&self, class: &Class) -> Class {
        Class { u: class.u.clone(), v: class.v.add(&Polynomial::one()).remainder(self.field, &class.u) }
    }

    /// Composition of two classes: e = gcd(u1, u2, v1 + v2 + 1) = s1 u1 + s2 u2 + s3 (v1 + v2 + 1), then
    /// u = u1 u2 / e^2 and v = (s1 u1 v2 + s2 u2 v1 + s3 (v1 v2 + f)) / e modulo u.
    fn compose(&self, first: &Class, second: &Class) -> Class {
        let k = self.field;
        let Class { u: u1, v: v1 } = first;
        let Class { u: u2, v: v2 } = second;
        let c = v1.add(v2).add(&Polynomial::one());
        let (g, t1, t2) = Polynomial::extended_gcd(k, u1, u2);
        let (e, t, s3) = Polynomial::extended_gcd(k, &g, &c);
        let (s1, s2) = (t.mul(k, &t1), t.mul(k, &t2));

        let u = u1.mul(k, u2).exact_quotient(k, &e.square(k));
        let numerator =
            s1.mul(k, u1).mul(k, v2).add(&s2.mul(k, u2).mul(k, v1)).add(&s3.mul(k, &v1.mul(k, v2).add(&self.f)));
        let v = numerator.exact_quotient(k, &e).remainder(k, &u);
        Class { u, v }
    }

    /// While the degree of u exceeds 3: u becomes (f + v + v^2) / u made monic, then v becomes v + 1 modulo u.
    fn reduce(&self, mut class: Class) -> Reduced {
        let mut steps = 0;
        while class.degree() > 3 {
            let u = self.norm(&class.v).exact_quotient(self.field, &class.u).monic(self.field);
            let v = class.v.add(&Polynomial::one()).remainder(self.field, &u);
            class = Class { u, v };
            steps += 1;
        }
        Reduced { class, steps }
    }

    /// The sum, with its number of reduction steps.
    pub fn sum_in_steps(&self, first: &Class, second: &Class) -> Reduced {
        self.reduce(self.compose(first, second))
    }

    pub fn sum(&self, first: &Class, second: &Class) -> Class {
        self.sum_in_steps(first, second).class
    }

    pub fn difference(&self, first: &Class, second: &Class) -> Class {
        self.sum(first, &self.opposite(second))
    }

    /// The double, u^2 with v^2 + f modulo u^2 reduced, with its number of reduction steps.
    pub fn double_in_steps(&self, class: &Class) -> Reduced {
        let u = class.u.square(self.field);
        let v = class.v.square(self.field).add(&self.f).remainder(self.field, &u);
        self.reduce(Class { u, v })
    }

    pub fn double(&self, class: &Class) -> Class {
        self.double_in_steps(class).class
    }

    /// n times a class, by doubling and adding.
    pub fn multiple(&self, n: u128, class: &Class) -> Class {
        let mut result = Class::neutral();
        for i in (0..128 - n.leading_zeros()).rev() {
            result = self.double(&result);
            if n >> i & 1 == 1 {
                result = self.sum(&result, class);
            }
        }
        result
    }

    /// The class [x + a, y] of a point (a, y) of the curve, where there is one with this a.
    pub fn point(&self, a: u64) -> Option<Class> {
        let y = self.field.root_of_artin_schreier(self.f.at(self.field, a))?;
        Some(Class::new(vec![a, 1], vec![y]))
    }

    /// The same with the y of lowest bit 0.
    pub fn even_point(&self, a: u64) -> Option<Class> {
        let y = self.field.even_root_of_artin_schreier(self.f.at(self.field, a))?;
        Some(Class::new(vec![a, 1], vec![y]))
    }

    /// A curve whose three coefficients are drawn from the whole field.
    pub fn drawn(random: &mut Random, field: Field) -> Curve {
        let [f3, f1, f0] = [0; 3].map(|_| random.element(field));
        Curve::new(field, f3, f1, f0)
    }

    /// The class of a drawn point of the curve, which has to have one.
    pub fn drawn_point(&self, random: &mut Random) -> Class {
        loop {
            if let Some(point) = self.point(random.element(self.field)) {
                return if random.below(2) == 0 { point } else { self.opposite(&point) };
            }
        }
    }
}

#[cfg(test)]
mod tests {
    use super::*;
    use crate::field::{BENCH, WIDE};

    const FIELDS: [Field; 2] = [BENCH, WIDE];

    fn random_curve(random: &mut Random, field: Field) -> Curve {
        Curve::with_all(field, [0; 7].map(|_: u64| random.element(field)))
    }

    fn random_class(random: &mut Random, curve: &Curve) -> Class {
        let mut class = Class::neutral();
        for _ in 0..4 {
            let point = curve.point(random.element(curve.field));
            class = curve.sum(&class, &point.unwrap_or_else(Class::neutral));
        }
        class
    }

    /// Document 01's twelve examples. A half is held to its definition: the class whose double is the one given.
    #[test]
    fn twelve_examples() {
        let class = |u: &[u64], v: &[u64]| Class::new(u.to_vec(), v.to_vec());
        let x = class(&[0, 1], &[]);
        let x_one = class(&[0, 1], &[1]);
        let x2 = class(&[0, 0, 1], &[]);
        let x3 = class(&[0, 0, 0, 1], &[]);
        let x3_one = class(&[0, 0, 0, 1], &[1]);
        // on B: [x + 1, 0], [x^2 + 1, x + 1], [x^3 + x^2 + 1, 0], [x^3 + x^2 + x + 1, x]
        let b1 = class(&[1, 1], &[]);
        let b2 = class(&[1, 0, 1], &[1, 1]);
        let b3 = class(&[1, 0, 1, 1], &[]);
        let b4 = class(&[1, 1, 1, 1], &[0, 1]);
        for field in FIELDS {
            let a = Curve::new(field, 0, 0, 0);
            let b = Curve::new(field, 0, 0, 1);
            for member in [&x, &x_one, &x2, &x3, &x3_one, &Class::neutral()] {
                assert!(a.is_member(member));
            }
            for member in [&b1, &b2, &b3, &b4, &Class::neutral()] {
                assert!(b.is_member(member));
            }
            assert_eq!(a.double(&x), x2, "example 1");
            assert_eq!(a.double(&x2), x3_one, "example 2");
            assert_eq!(a.double(&x3_one), x, "example 3");
            assert_eq!(a.double(&Class::neutral()), Class::neutral(), "example 4");
            assert_eq!(b.double(&b1), b2, "example 5");
            assert_eq!(b.double(&b2), b3, "example 6");
            assert_eq!(b.double(&b3), b4, "example 7");
            assert_eq!(b.double_in_steps(&b3).steps, 2, "example 7 goes 6, 4, 3");
            assert_eq!(a.sum(&x, &x_one), Class::neutral(), "example 8");
            assert_eq!(a.sum(&x3, &x3), x_one, "example 9");
            assert_eq!(b.sum(&b2, &class(&[1, 1], &[1])), b1, "example 10");
            let sum = b.sum(&b3, &class(&[1, 1, 1, 1], &[1, 1]));
            assert_eq!(sum, class(&[1, 0, 1, 1], &[1]), "example 11");
            assert!(!b.is_member(&x), "example 12");
        }
    }

    #[test]
    fn membership_edges() {
        let a = Curve::new(BENCH, 0, 0, 0);
        // u of degree 4, u not monic, v of the degree of u, a coefficient that is no element
        assert!(!a.is_member(&Class::new(vec![0, 0, 0, 0, 1], vec![])));
        assert!(!a.is_member(&Class::new(vec![0, 2], vec![])));
        assert!(!a.is_member(&Class::new(vec![0, 1], vec![0, 1])));
        assert!(!a.is_member(&Class::new(vec![1], vec![1])));
        assert!(!a.is_member(&Class::new(vec![32, 1], vec![])));
    }

    /// The laws of a group, on curves with all seven coefficients; results are reduced, in at most two steps.
    #[test]
    fn group_laws() {
        for field in FIELDS {
            let mut random = Random::new(4);
            for _ in 0..100 {
                let curve = random_curve(&mut random, field);
                let [d, e, g] = [0; 3].map(|_| random_class(&mut random, &curve));
                let sum = curve.sum_in_steps(&d, &e);
                assert!(curve.is_member(&sum.class) && sum.steps <= 2);
                let double = curve.double_in_steps(&d);
                assert!(curve.is_member(&double.class) && double.steps <= 2);
                assert_eq!(double.class, curve.sum(&d, &d));
                assert_eq!(sum.class, curve.sum(&e, &d));
                assert_eq!(curve.sum(&sum.class, &g), curve.sum(&d, &curve.sum(&e, &g)));
                assert_eq!(curve.sum(&d, &Class::neutral()), d);
                assert_eq!(curve.difference(&sum.class, &e), d);
                assert_eq!(curve.difference(&d, &d), Class::neutral());
                assert_eq!(curve.multiple(5, &d), curve.sum(&curve.double(&curve.double(&d)), &d));
            }
        }
    }
}
