use super::*;
use crate::archive::Archive;
use crate::jacobian::{Class, Curve};
use crate::stored::COUNT_LIMIT;
use std::collections::{BTreeSet, HashSet};

#[test]
fn bytes_of_a_case() {
    let curve = Curve::new(crate::field::BENCH, 0, 0, 0);
    let made = Made::new(&curve, b"", Class::neutral(), &[Class::neutral()], vec![]);
    let input = made.archive.bytes();
    assert_eq!(input.len(), 45);
    let case = ArchiveCase::of_made_in_room(&made, 1);
    let numbers = vec![0, 0, 0, 93, 0, 0, 0, 45, 0, 0, 0, 0, 0, 0, 0, 45];
    assert_eq!(case.bytes(), [vec![0, 0, 0, 0, 0, 0, 0, 1], numbers, input.clone(), input.clone()].concat());
    let case = ArchiveCase::of_made(&made, 0x0102030405060708, 300).bytes();
    let numbers = vec![0, 0, 1, 44, 0, 0, 0, 45, 0, 0, 0, 123, 0, 0, 0, 0];
    assert_eq!(case, [vec![1, 2, 3, 4, 5, 6, 7, 8], numbers, input].concat());
}

/// How many cases of each kind there are, and what they meet. What is expected is what `suppress` answers, also where
/// it comes from the earliest seal, and what is written is an archive with one operation neutral.
#[test]
fn kinds() {
    let beside_room: Vec<u32> = (102..=112).chain([122]).collect();
    let expected = [
        ("all-k", 5760, vec![0, 101, 123, 124]),
        ("full", 96, vec![0, 101, 123, 124]),
        ("truncations", 1069, vec![0, 102, 105]),
        ("changes", 81_092, [&[0], &beside_room[1..], &[124]].concat()),
        ("pairs", 10_200, vec![0, 102, 104, 105, 112, 122, 123, 124]),
        ("held", 13_008, vec![0, 123, 124]),
    ];
    assert_eq!(expected.clone().map(|(kind, ..)| kind), KINDS);
    for (kind, number, met) in expected {
        let cases = cases(kind).unwrap();
        assert_eq!(cases.len(), number, "{kind}");
        let refusals: BTreeSet<u32> = cases.iter().map(|case| case.refusal).collect();
        assert_eq!(refusals.into_iter().collect::<Vec<u32>>(), met, "{kind}");
        for case in cases {
            let ArchiveCase { input, k, output_length, refusal, written } = case;
            assert!(input.len() <= LONGEST && output_length <= LONGEST);
            let answer = if refusal == 0 { Ok(written.clone()) } else { Err(refusal) };
            assert_eq!(suppress(&input, k, output_length), answer, "{kind} {k}");
            if refusal != 0 {
                assert!(written.is_empty());
                continue;
            }
            let (before, after) = (Archive::read(&input).unwrap(), Archive::read(&written).unwrap());
            let mut operations = before.operations.clone();
            operations[before.operations.len() - k as usize] = Class::neutral();
            assert_eq!(after, Archive { seal: after.seal.clone(), operations, ..before });
            assert!(written.len() <= input.len() + 32);
        }
    }
}

/// The last seals of archives and of what becomes of them have every degree, over both fields; so do the operations
/// that are suppressed.
#[test]
fn every_degree() {
    let mut met = HashSet::new();
    for case in cases("all-k").unwrap().into_iter().filter(|case| case.refusal == 0) {
        let (before, after) = (Archive::read(&case.input).unwrap(), Archive::read(&case.written).unwrap());
        let operation = &before.operations[before.operations.len() - case.k as usize];
        let field = before.curve.field.degree;
        met.insert((field, "before", before.seal.degree()));
        met.insert((field, "after", after.seal.degree()));
        met.insert((field, "operation", operation.degree()));
    }
    assert_eq!(met.len(), 2 * 3 * 4);
}

/// The longest archive that there is is among the full ones, and operations of it are suppressed.
#[test]
fn longest() {
    let longest = 4 + 27 + 41 + 5 + 51 + COUNT_LIMIT as usize * 51 + 3 + 4 * 2048;
    let cases = cases("full").unwrap();
    let accepted = cases.iter().filter(|case| case.input.len() == longest && case.refusal == 0);
    assert!(accepted.count() > 5);
}

/// Among the first ten thousand drawn ones every refusal is met over both fields, and many are accepted.
#[test]
fn every_outcome() {
    let cases: Vec<ArchiveCase> = Mutated::new().take(10_000).collect();
    for degree in [5, 61] {
        let of_field = || cases.iter().filter(|case| case.input.get(3) == Some(&degree));
        let met: BTreeSet<u32> = of_field().map(|case| case.refusal).collect();
        let all = [0, 101].into_iter().chain(103..=105).chain(107..=112).chain(122..=124);
        assert!(all.clone().all(|number| met.contains(&number)), "{met:?}");
        assert!(of_field().filter(|case| case.refusal == 0).count() > 400);
        assert!(of_field().filter(|case| case.refusal == 122).count() > 100);
    }
    for number in [102, 106] {
        assert!(cases.iter().any(|case| case.refusal == number));
    }
    let longest = cases.iter().map(|case| case.input.len().max(case.output_length)).max();
    assert!(longest.unwrap() <= LONGEST);
    // the edge of the room, on inputs that are accepted and on others
    for more in [GROWTH - 1, GROWTH] {
        let at_edge = |case: &&ArchiveCase| case.output_length == case.input.len() + more;
        assert!(cases.iter().filter(at_edge).count() > 100);
    }
}
