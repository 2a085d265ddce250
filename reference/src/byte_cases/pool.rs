//! Curves over both fields, each with classes of every degree, and with stamps that have none.

use crate::field::{Field, BENCH, WIDE};
use crate::halving::half;
use crate::jacobian::{Class, Curve};
use crate::random::Random;
use crate::stamp::{class_of_stamp, stamp_limit};

/// A curve and some of its classes, and stamps that have no class on it.
pub struct Pool {
    pub curve: Curve,
    pub classes: Vec<Class>,
    pub stamps_without_class: Vec<u64>,
}

impl Pool {
    /// The neutral class, halves of points, and sums of one to four points with their doubles.
    fn new(random: &mut Random, curve: Curve) -> Pool {
        let mut classes = vec![Class::neutral(); 2];
        classes.extend((0..2).map(|_| half(&curve, &curve.drawn_point(random))));
        for _ in 0..4 {
            let mut sum = Class::neutral();
            for _ in 0..4 {
                sum = curve.sum(&sum, &curve.drawn_point(random));
                classes.extend([sum.clone(), curve.double(&sum)]);
            }
        }
        let first_stamps = 0..stamp_limit(curve.field).min(1000);
        let stamps_without_class = first_stamps.filter(|&stamp| class_of_stamp(&curve, stamp).is_err()).collect();
        Pool { curve, classes, stamps_without_class }
    }
}

/// A drawn curve that has a point, which over the bench field not every curve has.
fn drawn_curve(random: &mut Random, field: Field) -> Curve {
    loop {
        let curve = Curve::drawn(random, field);
        if field == WIDE || (0..32).any(|a| curve.point(a).is_some()) {
            return curve;
        }
    }
}

/// f = x^7, f = x^7 + x^3, f = x^7 + x^3 + x, on which a stamp of the bench field has no class, and nine drawn curves, over
/// both fields.
pub fn pools() -> Vec<Pool> {
    let mut random = Random::new(70);
    let mut pools = vec![];
    for field in [BENCH, WIDE] {
        let mut curves =
            [[0, 0, 0], [1, 0, 0], [1, 1, 0]].map(|[f3, f1, f0]| Curve::new(field, f3, f1, f0)).to_vec();
        curves.extend((0..9).map(|_| drawn_curve(&mut random, field)));
        pools.extend(curves.into_iter().map(|curve| Pool::new(&mut random, curve)));
    }
    pools
}

#[cfg(test)]
mod tests {
    use super::*;
    use std::collections::HashSet;

    #[test]
    fn classes_of_every_degree() {
        let pools = pools();
        for pool in &pools {
            assert!(pool.classes.iter().all(|class| pool.curve.is_member(class)));
        }
        let degrees = |pool: &Pool| pool.classes.iter().map(Class::degree).collect::<HashSet<usize>>();
        assert!(pools.iter().filter(|pool| degrees(pool).len() == 4).count() > 20);
    }

    #[test]
    fn stamps_without_class() {
        for field in [BENCH, WIDE] {
            let of_field = |pool: &&Pool| pool.curve.field == field && !pool.stamps_without_class.is_empty();
            assert!(pools().iter().any(|pool| of_field(&pool)));
        }
    }
}
