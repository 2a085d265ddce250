//! Every reduced class of a curve over the bench field.
//!
//! For a given u the polynomials v with u | v^2 + v + f are the solutions of linear equations over GF(2): v is
//! taken to the at most 15 bits of its coefficients, on which v^2 + v modulo u is a linear map.

use crate::field::BENCH;
use crate::jacobian::{Class, Curve};
use crate::polynomial::Polynomial;

const WIDTH: u32 = BENCH.degree;

/// The polynomial whose coefficients stand in the bits, five for each.
fn unpack(bits: u32) -> Polynomial {
    Polynomial::new((0..3).map(|i| (bits >> (WIDTH * i) & 31) as u64).collect())
}

fn pack(p: &Polynomial) -> u32 {
    (0..3).map(|i| (p.coefficient(i as usize) as u32) << (WIDTH * i)).sum()
}

/// All x with the sum of images[i] over the bits i of x equal to the target.
fn solutions(images: &[u32], target: u32) -> Vec<u32> {
    // rows (image, argument), each with a leading bit that no other row has
    let mut rows: Vec<(u32, u32)> = vec![];
    let mut kernel = vec![];
    let reduced = |rows: &[(u32, u32)], mut row: (u32, u32)| {
        for r in rows {
            if row.0 ^ r.0 < row.0 {
                row = (row.0 ^ r.0, row.1 ^ r.1);
            }
        }
        row
    };
    for (i, &image) in images.iter().enumerate() {
        let row = reduced(&rows, (image, 1 << i));
        if row.0 == 0 {
            kernel.push(row.1);
        } else {
            rows.push(row);
            rows.sort_by(|a, b| b.cmp(a));
        }
    }
    let (rest, particular) = reduced(&rows, (target, 0));
    if rest != 0 {
        return vec![];
    }
    let mut found = vec![particular];
    for k in kernel {
        found.extend(found.clone().iter().map(|x| x ^ k));
    }
    found
}

/// The reduced classes with this u.
fn classes_over(curve: &Curve, u: &Polynomial) -> Vec<Class> {
    let n = u.degree().expect("u is not 0") as u32;
    let image = |bit: u32| {
        let v = unpack(1 << bit);
        pack(&v.square(BENCH).add(&v).remainder(BENCH, u))
    };
    let images: Vec<u32> = (0..WIDTH * n).map(image).collect();
    let target = pack(&curve.f.remainder(BENCH, u));
    let class = |v| Class { u: u.clone(), v: unpack(v) };
    solutions(&images, target).into_iter().map(class).collect()
}

/// Every reduced class of a curve over the bench field, each once.
pub fn all_classes(curve: &Curve) -> Vec<Class> {
    assert_eq!(curve.field, BENCH);
    let mut classes = vec![];
    for n in 0..4 {
        for bits in 0..1 << (WIDTH * n) {
            let leading = Polynomial::new((0..=n).map(|i| (i == n) as u64).collect());
            classes.extend(classes_over(curve, &unpack(bits).add(&leading)));
        }
    }
    classes
}

#[cfg(test)]
mod tests {
    use super::*;
    use std::collections::HashSet;

    /// Curve A has 32,417 classes; each is one, and no two are the same.
    #[test]
    fn classes_of_curve_a() {
        let curve = Curve::new(BENCH, 0, 0, 0);
        let classes = all_classes(&curve);
        assert_eq!(classes.len(), 32417);
        assert!(classes.iter().all(|class| curve.is_member(class)));
        assert_eq!(classes.iter().collect::<HashSet<_>>().len(), classes.len());
    }

    /// For degrees 0 to 2 the list has all that trying every pair finds.
    #[test]
    fn small_degrees_by_trial() {
        for curve in [Curve::new(BENCH, 0, 0, 0), Curve::with_all(BENCH, [9, 5, 30, 1, 17, 2, 8])] {
            let mut tried = HashSet::new();
            for n in 0..3 {
                for u in 0..1u32 << (WIDTH * n) {
                    for v in 0..1u32 << (WIDTH * n) {
                        let leading = Polynomial::new((0..=n).map(|i| (i == n) as u64).collect());
                        let class = Class { u: unpack(u).add(&leading), v: unpack(v) };
                        if curve.is_member(&class) {
                            tried.insert(class);
                        }
                    }
                }
            }
            let listed = all_classes(&curve).into_iter().filter(|class| class.degree() < 3);
            assert_eq!(listed.collect::<HashSet<_>>(), tried);
        }
    }
}
