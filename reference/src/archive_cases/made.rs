//! Archives that are made from an earliest seal by a walk forward, so that it is known.

use crate::archive::Archive;
use crate::byte_cases::pool::Pool;
use crate::jacobian::{Class, Curve};
use crate::random::Random;
use crate::stored::Pair;
use crate::suppression::{suppressed_from, walked_forward};

/// An archive and its earliest seal.
#[derive(Clone)]
pub struct Made {
    pub first: Class,
    pub archive: Archive,
}

impl Made {
    /// The archive of these operations, oldest first.
    pub fn new(curve: &Curve, drawing: &[u8], first: Class, oldest_first: &[Class], pairs: Vec<Pair>) -> Made {
        let seal = walked_forward(curve, &first, oldest_first);
        let operations = oldest_first.iter().rev().cloned().collect();
        Made {
            first,
            archive: Archive { curve: curve.clone(), drawing: drawing.to_vec(), seal, operations, pairs },
        }
    }

    /// How many operations there are.
    pub fn n(&self) -> u64 {
        self.archive.operations.len() as u64
    }

    /// The same with operation k suppressed, which has to be accepted.
    pub fn without(&self, k: u64) -> Made {
        let archive = suppressed_from(&self.first, &self.archive, k).expect("the operation is not held");
        Made { first: self.first.clone(), archive }
    }
}

/// What the operations of an archive are.
#[derive(Clone, Copy)]
pub enum Variety {
    /// Any classes.
    Any,
    /// Every second one neutral.
    Views,
    /// Many equal to the one before, or its opposite.
    Neighbours,
    /// The earliest seal and the operations of degree below 3.
    Low,
    /// The last seal of this degree.
    LowSeal(usize),
    /// The last seal of this degree once a drawn operation is suppressed.
    LowResult(usize),
}

/// One of the pool's classes that have a degree from these on.
fn of_degree(random: &mut Random, pool: &Pool, degrees: std::ops::RangeInclusive<usize>) -> Class {
    let fitting: Vec<&Class> = pool.classes.iter().filter(|class| degrees.contains(&class.degree())).collect();
    // a curve with few points may have no class of one degree
    if fitting.is_empty() {
        return Class::neutral();
    }
    (*random.pick(&fitting)).clone()
}

/// An archive of n operations of a variety.
pub fn drawn(random: &mut Random, pool: &Pool, n: usize, variety: Variety, pairs: Vec<Pair>) -> Made {
    let curve = &pool.curve;
    let most = if matches!(variety, Variety::Low) { 2 } else { 3 };
    let first = of_degree(random, pool, 0..=most);
    let mut operations: Vec<Class> = vec![];
    for _ in 0..n {
        let next = match (variety, random.below(4), operations.last()) {
            (Variety::Views, 0 | 1, _) => Class::neutral(),
            (Variety::Neighbours, 0 | 1, Some(last)) => last.clone(),
            (Variety::Neighbours, 2, Some(last)) => curve.opposite(last),
            _ => of_degree(random, pool, 0..=most),
        };
        operations.push(next);
    }
    // the last operation leads from the seal before it to the one that is wanted
    if let (Variety::LowSeal(degree) | Variety::LowResult(degree), 1..) = (variety, n) {
        let mut before = operations[..n - 1].to_vec();
        if matches!(variety, Variety::LowResult(_)) && n > 1 {
            before[random.below(n - 1)] = Class::neutral();
        }
        let wanted = of_degree(random, pool, degree..=degree);
        operations[n - 1] = curve.difference(&wanted, &curve.double(&walked_forward(curve, &first, &before)));
    }
    let drawing: Vec<u8> = (0..random.below(6)).map(|_| 0x20 + random.below(95) as u8).collect();
    Made::new(curve, &drawing, first, &operations, pairs)
}
