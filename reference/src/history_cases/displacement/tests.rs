use super::super::{Accepted, RECORD, START};
use super::*;
use std::collections::HashSet;

/// The seals after each of some commits, by the rule of a commit.
fn committed(variants: &Variants, operations: &[Class]) -> Vec<Class> {
    let seals = operations.iter().scan(variants.first.clone(), |seal, class| {
        *seal = seal_after_commit(variants.ground.curve, seal, class);
        Some(seal.clone())
    });
    seals.collect()
}

/// Which calls of each list of a trial are refused.
fn refused(trial: &Trial) -> Vec<Vec<bool>> {
    let mut lines = trial.output.lines();
    let records: Vec<&[u8]> = trial.input.chunks_exact(RECORD).collect();
    let lists = records.split(|record| record[0] == START).skip(1);
    lists.map(|list| lines.by_ref().take(list.len()).map(|line| line.starts_with("refused")).collect()).collect()
}

/// What is expected for a changed list is what its commits lead to by the rule, one after the other. In most cases refused calls
/// stand at other places in the two lists.
#[test]
fn owed_by_commits() {
    let mut random = Random::new(98);
    let mut at_other_places = vec![];
    for field in [BENCH, WIDE] {
        for_each(field, |variants| {
            let mut trial = Trial::new();
            variants.run(&mut trial, &mut random);
            let refused = refused(&trial);
            assert_eq!(refused.len(), 2);
            at_other_places.push(refused[0] != refused[1]);
            let mut register = trial.accepted[0].before;
            for Accepted { call, class, before } in trial.accepted {
                assert_eq!((call, before), (COMMIT, register));
                register = register.commit(class).expect("the commit is accepted");
            }
            assert_eq!(trial.register, register);
        });
    }
    assert!(2 * at_other_places.iter().filter(|other| **other).count() > at_other_places.len());
}

/// The last seals differ wherever D and E do. The difference doubled once more, or with its sign turned, would lead to
/// another seal there.
#[test]
fn neither_a_doubling_more_nor_the_other_sign() {
    for field in [BENCH, WIDE] {
        for_each(field, |variants| {
            let curve = variants.ground.curve;
            let last = |operations| committed(variants, operations).pop().expect("there is a commit");
            let (first, expected) = (last(&variants.operations), last(&variants.changed));
            let by = curve.difference(&expected, &first);
            let wrong = [Class::neutral(), curve.double(&by), curve.opposite(&by)].map(|by| curve.sum(&first, &by));
            let same = variants.operations == variants.changed;
            assert_eq!(wrong.map(|wrong| wrong == expected), [same; 3]);
        });
    }
}

/// What E is seen to be, and where it stands.
fn kind(variants: &Variants) -> (&'static str, &'static str) {
    let at = variants.place - 1;
    let (d, e) = (&variants.operations[at], &variants.changed[at]);
    let change = match e {
        e if e == d => "same",
        e if *e == Class::neutral() => "neutral",
        e if *e == variants.ground.curve.opposite(d) => "opposite",
        _ if variants.difference().degree() == 1 => "a point more",
        _ => "any",
    };
    let place = match variants.place {
        k if k == variants.operations.len() => "newest",
        1 => "oldest",
        _ => "between",
    };
    (change, place)
}

/// Over both fields every length has its lists, every kind of E stands at either end and between, and the seals that move
/// have every degree.
#[test]
fn every_length_kind_and_degree() {
    let changes = ["same", "neutral", "opposite", "a point more", "any"];
    let expected = changes.map(|change| ["newest", "oldest", "between"].map(|place| (change, place)));
    for field in [BENCH, WIDE] {
        let (mut lists, mut curves) = (vec![], HashSet::new());
        let (mut kinds, mut degrees) = (HashSet::new(), HashSet::new());
        for_each(field, |variants| {
            lists.push((variants.operations.len(), variants.place));
            curves.insert(variants.ground.values.bytes());
            kinds.insert(kind(variants));
            if variants.operations != variants.changed {
                let moved = committed(variants, &variants.changed).split_off(variants.place - 1);
                degrees.extend(moved.iter().map(Class::degree));
            }
        });
        assert_eq!((lists.len(), curves.len()), (1 + 63 * 3, 4));
        assert!((1..=64).all(|n| lists.contains(&(n, 1)) && lists.contains(&(n, n))));
        assert_eq!(kinds, HashSet::from_iter(expected.concat()));
        assert_eq!(degrees, HashSet::from([0, 1, 2, 3]));
    }
}
