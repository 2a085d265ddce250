//! What holds an operation and what does not, with every k.

use super::made::Made;
use super::ArchiveCase;
use crate::field::{BENCH, WIDE};
use crate::jacobian::{Class, Curve};
use crate::random::Random;
use crate::stored::Pair;

/// Which of some things are in the set of a number.
fn chosen<T: Clone>(all: &[T], set: usize) -> Vec<T> {
    let wanted = |(i, one): (usize, &T)| (set >> i & 1 == 1).then(|| one.clone());
    all.iter().enumerate().filter_map(wanted).collect()
}

/// Every k of an archive from 0 to n + 1.
fn every_k(made: &Made) -> impl Iterator<Item = ArchiveCase> + '_ {
    (0..=made.n() + 1).map(|k| ArchiveCase::of_made_in_room(made, k))
}

/// Four operations with every set of their six pairs, and every set of them neutral.
fn every_set(random: &mut Random, curve: &Curve) -> Vec<ArchiveCase> {
    let all = [(2, 1), (3, 1), (3, 2), (4, 1), (4, 2), (4, 3)];
    let first = curve.drawn_point(random);
    let classes = [0; 4].map(|_| curve.drawn_point(random));
    let mut cases = vec![];
    for pairs in 0..1 << all.len() {
        for neutral in 0..1 << classes.len() {
            let class = |i: usize| if neutral >> i & 1 == 1 { Class::neutral() } else { classes[i].clone() };
            let operations: Vec<Class> = (0..classes.len()).map(class).collect();
            let made = Made::new(curve, b"", first.clone(), &operations, chosen(&all, pairs));
            cases.extend(every_k(&made));
        }
    }
    cases
}

/// Operations that are suppressed one after another, from the newest on: each is held until those that hold it are
/// suppressed. Every k is tried after each.
fn newest_first(random: &mut Random, curve: &Curve, pairs: Vec<Pair>) -> Vec<ArchiveCase> {
    let operations: Vec<Class> =
        (0..8).map(|_| curve.sum(&curve.drawn_point(random), &curve.drawn_point(random))).collect();
    let mut made = Made::new(curve, b"HELD", curve.drawn_point(random), &operations, pairs);
    let mut cases: Vec<ArchiveCase> = every_k(&made).collect();
    for k in (1..=8).rev() {
        made = made.without(k);
        cases.extend(every_k(&made));
    }
    cases
}

/// Over both fields: four operations with all sets of pairs; eight in a chain, with all pairs, with one that holds all
/// others, and with one that all others hold.
pub fn cases() -> Vec<ArchiveCase> {
    let mut random = Random::new(106);
    let chain = (2..=8).map(|later| (later, later - 1)).collect();
    let all = (2..=8).flat_map(|later| (1..later).map(move |earlier| (later, earlier))).collect();
    let holds_all = (1..8).map(|earlier| (8, earlier)).collect();
    let held_by_all = (2..=8).map(|later| (later, 1)).collect();
    let lists: [Vec<Pair>; 4] = [chain, all, holds_all, held_by_all];
    let mut cases = vec![];
    for field in [BENCH, WIDE] {
        let curve = Curve::new(field, 1, 1, 0);
        cases.extend(every_set(&mut random, &curve));
        for pairs in &lists {
            cases.extend(newest_first(&mut random, &curve, pairs.clone()));
        }
    }
    cases
}
