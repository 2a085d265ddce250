//! A curve with what lists of calls are drawn from: its points and classes, values that are no class, and the halves that
//! are known on it.
//!
//! Halves are known over the bench field from the doubles of all classes, and on a curve with coefficients 0 and 1 over
//! GF(2^61) from the squaring map. On any other curve they are known from answers alone: the half is drawn first.

use super::edges::no_classes;
use super::COMMIT;
use crate::bench_classes::all_classes;
use crate::class_cases::{ClassValues, CurveValues};
use crate::field::{Field, BENCH};
use crate::halving::{halves_from_doubles, HalfByFrobenius};
use crate::jacobian::{Class, Curve};
use crate::random::Random;
use std::collections::HashMap;

/// A curve whose coefficients are drawn from the whole field.
pub(super) fn drawn_values(random: &mut Random, field: Field) -> CurveValues {
    let [f3, f1, f0] = [0; 3].map(|_| random.element(field));
    CurveValues::new(field, f3, f1, f0)
}

pub(super) enum Halves<'a> {
    FromDoubles(HashMap<Class, Class>),
    ByFrobenius(HalfByFrobenius<'a>),
    FromAnswers,
}

/// A curve, with what is known on it.
pub(super) struct Ground<'a> {
    pub values: CurveValues,
    pub curve: &'a Curve,
    /// All classes over the bench field, in order of their degree.
    pub classes: Vec<Class>,
    pub halves: Halves<'a>,
}

impl Ground<'_> {
    pub fn new(values: CurveValues, curve: &Curve) -> Ground<'_> {
        let ground = Ground::for_commits(values, curve);
        let halves = if curve.field == BENCH {
            Halves::FromDoubles(halves_from_doubles(curve, &ground.classes))
        } else if [values.f3, values.f1, values.f0].iter().all(|&c| c < 2) {
            Halves::ByFrobenius(HalfByFrobenius::new(curve))
        } else {
            Halves::FromAnswers
        };
        Ground { halves, ..ground }
    }

    /// The same without halves, which commits do not need.
    pub fn for_commits(values: CurveValues, curve: &Curve) -> Ground<'_> {
        let classes = if curve.field == BENCH { all_classes(curve) } else { vec![] };
        Ground { values, curve, classes, halves: Halves::FromAnswers }
    }

    pub fn half(&self, class: &Class) -> Option<Class> {
        match &self.halves {
            Halves::FromDoubles(halves) => Some(halves[class].clone()),
            Halves::ByFrobenius(halves) => Some(halves.half(class)),
            Halves::FromAnswers => None,
        }
    }

    /// A point of the curve; the neutral class where none is met.
    pub fn point(&self, random: &mut Random) -> Class {
        let drawn = (0..64).find_map(|_| self.curve.point(random.element(self.curve.field)));
        let point = drawn.unwrap_or_else(Class::neutral);
        if random.number() & 1 == 0 {
            point
        } else {
            self.curve.opposite(&point)
        }
    }

    /// A class of any degree: a sum of up to five points, some of them equal, or any class of the bench field.
    pub fn class(&self, random: &mut Random) -> Class {
        if !self.classes.is_empty() && random.number() & 1 == 0 {
            return self.classes[random.number() as usize % self.classes.len()].clone();
        }
        let mut class = Class::neutral();
        let mut point = self.point(random);
        for _ in 0..random.number() % 6 {
            if random.number() & 3 > 0 {
                point = self.point(random);
            }
            class = self.curve.sum(&class, &point);
        }
        class
    }

    /// Values in a class's place that are none: what is none on x^7, or a class with one number changed.
    pub fn no_class(&self, random: &mut Random) -> ClassValues {
        loop {
            let drawn = no_classes(self.curve.field)[(random.number() % 5) as usize];
            let mut changed = ClassValues::from(&self.class(random));
            let place = (random.number() % 3) as usize;
            let value = random.element(self.curve.field);
            match random.number() % 4 {
                0 => changed = drawn,
                1 => changed.u[place] = value,
                2 => changed.v[place] = value,
                _ => changed.degree = random.number() % 8,
            }
            if changed.class(self.curve).is_err() {
                return changed;
            }
        }
    }

    /// The class of a commit or an undo that leads from one seal to another: the difference of one and the double of
    /// the other.
    pub fn between(&self, call: u8, seal: &Class, next: &Class) -> Class {
        match call {
            COMMIT => self.curve.difference(next, &self.curve.double(seal)),
            _ => self.curve.difference(seal, &self.curve.double(next)),
        }
    }
}
