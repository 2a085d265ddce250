//! Lists of commits of which one operation is changed (document 02, request 7): n commits from a first seal, and the same
//! from that seal with operation k alone, counted from the oldest, changed from class D to class E. The seal after
//! operation j is then the same where j is below k, and from k on it moves by 2^(j-k) times E - D. What is expected for the
//! changed list is made so from the first list's seals, and the multiple from sums by decimal digits: it is neither
//! committed nor doubled.
//!
//! Refused calls stand at other places in the two lists, and they start from other counts and released steps, since
//! none of these moves a seal.

use super::ground::{drawn_values, Ground};
use super::{RegisterValues, Trial, COMMIT, LIMIT, UNDO};
use crate::calls::seal_after_commit;
use crate::class_cases::CurveValues;
use crate::field::{Field, BENCH, WIDE};
use crate::jacobian::{Class, Curve};
use crate::multiples::DecimalTable;
use crate::random::Random;

/// The most commits of a list.
const MOST: usize = 64;

/// What E is beside D.
#[derive(Clone, Copy)]
enum Change {
    AnyClass,
    Opposite,
    Neutral,
    PointMore,
    Same,
}

const CHANGES: [Change; 5] = [Change::AnyClass, Change::Opposite, Change::Neutral, Change::PointMore, Change::Same];

impl Change {
    /// E, where D and the seal before it are given.
    fn of(self, class: &Class, before: &Class, random: &mut Random, ground: &Ground) -> Class {
        match self {
            // the one that leads to a drawn seal
            Change::AnyClass if random.below(2) == 0 => ground.between(COMMIT, before, &ground.class(random)),
            Change::AnyClass => ground.class(random),
            Change::Opposite => ground.curve.opposite(class),
            Change::Neutral => Class::neutral(),
            Change::PointMore => ground.curve.sum(class, &ground.point(random)),
            Change::Same => class.clone(),
        }
    }
}

/// A list of commits from a first seal, and a change of one operation.
struct Variants<'a> {
    ground: &'a Ground<'a>,
    first: Class,
    /// The classes of the first list, oldest first, and of the changed one.
    operations: Vec<Class>,
    changed: Vec<Class>,
    /// The place k of the operation that is changed, counted from 1.
    place: usize,
}

impl<'a> Variants<'a> {
    fn drawn(random: &mut Random, ground: &'a Ground<'a>, n: usize, place: usize, change: Change) -> Variants<'a> {
        let first = ground.class(random);
        let operations: Vec<Class> = (0..n).map(|_| ground.class(random)).collect();
        let commit = |seal, class| seal_after_commit(ground.curve, &seal, class);
        let before = operations[..place - 1].iter().fold(first.clone(), commit);
        let mut changed = operations.clone();
        changed[place - 1] = change.of(&operations[place - 1], &before, random, ground);
        Variants { ground, first, operations, changed, place }
    }

    /// E - D.
    fn difference(&self) -> Class {
        let at = self.place - 1;
        self.ground.curve.difference(&self.changed[at], &self.operations[at])
    }

    /// The multiples of E - D by which the seals move.
    fn multiples(&self) -> DecimalTable<'a> {
        DecimalTable::new(self.ground.curve, &self.difference(), 1 << (self.operations.len() - self.place))
    }

    /// The seal after operation j of the changed list, from that of the first.
    fn moved(&self, j: usize, seal: &Class, multiples: &DecimalTable) -> Class {
        if j < self.place {
            return seal.clone();
        }
        self.ground.curve.sum(seal, &multiples.times(1 << (j - self.place)))
    }

    /// One of the lists: before each commit and after the last some refused calls, and at the end all that the register
    /// holds. It starts from count 0, from the highest from which so many commits are accepted, or from one between.
    fn list(&self, trial: &mut Trial, random: &mut Random, mut commit: impl FnMut(&mut Trial, usize)) {
        let n = self.operations.len();
        let highest = LIMIT - n as u64;
        let between = random.number() % (highest + 1);
        let count = *random.pick(&[0, highest, between]);
        let released = *random.pick(&[0, count / 2, count]);
        trial.start(RegisterValues { curve: self.ground.values, count, seal: (&self.first).into(), released });
        for i in 0..n {
            refused_calls(trial, random, self.ground);
            commit(trial, i);
        }
        refused_calls(trial, random, self.ground);
        assert_eq!(trial.accepted.len(), n);
        trial.show();
    }

    /// Both lists. The last seals are the same where D and E are, and there alone.
    fn run(&self, trial: &mut Trial, random: &mut Random) {
        let mut seals = vec![];
        self.list(trial, random, |trial, i| {
            trial.commit((&self.operations[i]).into());
            seals.push(trial.register.seal.class(self.ground.curve).expect("the seal is a class"));
        });
        let multiples = self.multiples();
        let expected: Vec<Class> = (1..).zip(&seals).map(|(j, seal)| self.moved(j, seal, &multiples)).collect();
        assert_eq!(expected.last() == seals.last(), self.changed == self.operations);
        self.list(trial, random, |trial, i| {
            let next = trial.register.moved(trial.register.count + 1, &expected[i]);
            trial.answered(COMMIT, (&self.changed[i]).into(), Ok(next));
        });
    }
}

/// Some calls that are surely refused, or none: with what is no class; at count 0 and at the released step undos, at
/// 1,024 commits, with any class.
fn refused_calls(trial: &mut Trial, random: &mut Random, ground: &Ground) {
    while random.below(8) == 0 {
        let barred = [(COMMIT, trial.register.count == LIMIT), (UNDO, trial.register.is_undo_barred())];
        let (call, is_barred) = *random.pick(&barred);
        let class = if is_barred { (&ground.class(random)).into() } else { ground.no_class(random) };
        trial.refused(call, class);
    }
}

/// f = x^7, another fixed curve and two that are drawn.
fn curves(random: &mut Random, field: Field) -> [CurveValues; 4] {
    let fixed = [[0, 0, 0], [12, 25, 6]].map(|[f3, f1, f0]| CurveValues::new(field, f3, f1, f0));
    [fixed[0], fixed[1], drawn_values(random, field), drawn_values(random, field)]
}

/// The places that are changed in lists of n: the first, the last and a drawn one.
fn places(random: &mut Random, n: usize) -> Vec<usize> {
    if n == 1 {
        return vec![1];
    }
    vec![1, n, 1 + random.below(n)]
}

/// Hands on lists of every length over a field with their changes, the curves and the kinds of change by turns.
fn for_each(field: Field, mut hand_on: impl FnMut(&Variants)) {
    let mut random = Random::new(97);
    let values = curves(&mut random, field);
    let curves: Vec<Curve> = values.iter().map(|values| values.curve().expect("the curve is accepted")).collect();
    let grounds: Vec<Ground> =
        values.iter().zip(&curves).map(|(values, curve)| Ground::for_commits(*values, curve)).collect();
    let mut turns = grounds.iter().cycle().zip(CHANGES.into_iter().cycle());
    for n in 1..=MOST {
        for place in places(&mut random, n) {
            let (ground, change) = turns.next().expect("the turns never end");
            hand_on(&Variants::drawn(&mut random, ground, n, place, change));
        }
    }
}

/// The lists over both fields.
pub fn lists(trial: &mut Trial) {
    let mut random = Random::new(98);
    for field in [BENCH, WIDE] {
        for_each(field, |variants| variants.run(trial, &mut random));
    }
}

#[cfg(test)]
mod tests;
