//! The archives that are kept in examples/, each with its report.
//!
//! - `document-01`: the example of document 01's walk report.
//! - `empty`: count 0 and an empty drawing number.
//! - `dozen`: twelve operations over GF(2^61), neutral ones and opposites among them; every letter occurs.
//! - `full`: 1,024 operations over GF(2^61).
//! - `low-degrees`: seals over GF(2^61) between which the walk halves from and to every degree.
//! - `views`: view changes, which are stored as neutral operations: one after another, after an operation that is not one,
//!   as the oldest operation and as the newest; operations with their opposites next to them, and one with a view change
//!   between it and its opposite.
//! - `bends`: six operations with pairs, of which the oldest two are held. The newest, which is paired to the third,
//!   was suppressed before and so holds nothing.
//! - `bends-suppressed`: `bends` with its third operation suppressed.
//!
//! And those in examples/failures/, which lines of docs/CHECKLIST.md catch:
//!
//! - `half-saved`: `dozen`, broken off within the last seal.
//! - `lost-tail`: `dozen` without the oldest operation that its count says.
//! - `other-operation`: `dozen` with the opposite of one operation in that one's place.
//! - `broken-pair`: `dozen` with a pair of an operation and itself.
//! - `low-degrees.other-report`: the walk of `low-degrees` by a tool that leaves classes of degree under three as they are
//!   where it should halve them.

use crate::archive::Archive;
use crate::class_cases::printed;
use crate::field::{BENCH, WIDE};
use crate::halving::half;
use crate::jacobian::{Class, Curve};
use crate::random::Random;
use crate::suppression::walked_forward;

/// The sum of a number of points of the curve.
fn of_points(random: &mut Random, curve: &Curve, number: usize) -> Class {
    (0..number).fold(Class::neutral(), |sum, _| curve.sum(&sum, &curve.drawn_point(random)))
}

/// The archive after these operations, oldest first, from a first seal.
fn committed(curve: Curve, drawing: &str, first: &Class, oldest_first: &[Class]) -> Archive {
    let seal = walked_forward(&curve, first, oldest_first);
    let operations = oldest_first.iter().rev().cloned().collect();
    Archive { curve, drawing: drawing.as_bytes().to_vec(), seal, operations, pairs: vec![] }
}

fn document_01() -> Archive {
    let class = |u: &[u64], v: &[u64]| Class::new(u.to_vec(), v.to_vec());
    Archive {
        curve: Curve::new(BENCH, 0, 0, 0),
        drawing: b"A1".to_vec(),
        seal: class(&[0, 0, 1], &[1]),
        operations: vec![class(&[0, 1], &[1]), class(&[0, 1], &[])],
        pairs: vec![],
    }
}

fn empty() -> Archive {
    let mut random = Random::new(81);
    let curve = Curve::drawn(&mut random, WIDE);
    let seal = of_points(&mut random, &curve, 3);
    committed(curve, "", &seal, &[])
}

fn dozen() -> (Class, Archive) {
    let mut random = Random::new(82);
    let curve = Curve::drawn(&mut random, WIDE);
    let [hole, slot, bend, cut] = [1, 2, 3, 5].map(|number| of_points(&mut random, &curve, number));
    let view = Class::neutral();
    let (unbend, uncut) = (curve.opposite(&bend), curve.opposite(&cut));
    let twice = curve.double(&hole);
    let operations =
        [&hole, &view, &slot, &bend, &unbend, &bend, &view, &view, &cut, &uncut, &twice, &hole].map(Class::clone);
    (Class::neutral(), committed(curve, "FLANGE 12-034 rev. C", &Class::neutral(), &operations))
}

fn full() -> (Class, Archive) {
    let mut random = Random::new(83);
    let curve = Curve::drawn(&mut random, WIDE);
    let parts: Vec<Class> = (0..16).map(|i| of_points(&mut random, &curve, 1 + i % 5)).collect();
    let mut operations: Vec<Class> = vec![];
    for _ in 0..1024 {
        let next = match (random.below(16), operations.last()) {
            (0, Some(last)) => curve.opposite(last),
            (1, _) => Class::neutral(),
            _ => random.pick(&parts).clone(),
        };
        operations.push(next);
    }
    let first = of_points(&mut random, &curve, 2);
    // a drawing number of 38 characters
    let archive = committed(curve, "COIL LINE 7 / 2041-118-0093 / SHEET 12", &first, &operations);
    (first, archive)
}

/// Seals S0, S1, .. and between them the operation that leads from each to the next. An undo halves 2 S, and its answer is S.
fn low_degrees() -> (Class, Archive) {
    let mut random = Random::new(84);
    let curve = Curve::drawn(&mut random, WIDE);
    let [point, pair, other, last] = [1, 2, 3, 3].map(|number| of_points(&mut random, &curve, number));
    let seals =
        [Class::neutral(), point.clone(), pair.clone(), half(&curve, &point), half(&curve, &pair), other, last];
    let operations: Vec<Class> =
        seals.windows(2).map(|next| curve.difference(&next[1], &curve.double(&next[0]))).collect();
    (Class::neutral(), committed(curve, "HINGE 7", &Class::neutral(), &operations))
}

fn views() -> (Class, Archive) {
    let mut random = Random::new(85);
    let curve = Curve::drawn(&mut random, WIDE);
    let [hole, slot, bend] = [1, 2, 3].map(|number| of_points(&mut random, &curve, number));
    let (view, unbend, unhole) = (Class::neutral(), curve.opposite(&bend), curve.opposite(&hole));
    let operations = [
        &view, &view, &slot, &view, &view, &view, &bend, &unbend, &bend, &view, &unbend, &hole, &unhole, &view,
        &view,
    ]
    .map(Class::clone);
    let first = of_points(&mut random, &curve, 3);
    let archive = committed(curve, "COVER 31 / 4 VIEWS", &first, &operations);
    (first, archive)
}

/// The operation of `bends` that is suppressed in `bends-suppressed`.
const SUPPRESSED: usize = 3;

/// A sheet: an outline, two bends, a hole beside the first bend, a slot, and a hem on the second bend that was
/// suppressed. The pairs say which was made on which. With `SUPPRESSED` neutral it is `bends-suppressed`, walked
/// forward from the same first seal.
fn bends(suppressed: bool) -> (Class, Archive) {
    let mut random = Random::new(86);
    let curve = Curve::drawn(&mut random, WIDE);
    let [outline, bend, other_bend, hole, slot] =
        [4, 3, 3, 1, 2].map(|number| of_points(&mut random, &curve, number));
    let mut operations = [outline, bend, other_bend, hole, slot, Class::neutral()];
    if suppressed {
        operations[SUPPRESSED - 1] = Class::neutral();
    }
    let first = of_points(&mut random, &curve, 3);
    let archive = committed(curve, "BRACKET 9 / 2 BENDS", &first, &operations);
    (first, Archive { pairs: vec![(2, 1), (3, 1), (4, 2), (6, 3)], ..archive })
}

/// The names and the archives.
pub fn samples() -> [(&'static str, Archive); 8] {
    [
        ("document-01", document_01()),
        ("empty", empty()),
        ("dozen", dozen().1),
        ("full", full().1),
        ("low-degrees", low_degrees().1),
        ("views", views().1),
        ("bends", bends(false).1),
        ("bends-suppressed", bends(true).1),
    ]
}

/// How many operations of `dozen` came after its release, whose seal is printed on the drawing.
const SINCE_RELEASE: usize = 7;

/// The seal of `dozen` at its release, as it is printed.
pub fn release_seal() -> String {
    printed(&dozen().1.walk()[SINCE_RELEASE]) + "\n"
}

/// The names and the bytes of archives that fail a line of the checklist.
pub fn failures() -> [(&'static str, Vec<u8>); 4] {
    let (_, dozen) = dozen();
    let fields = dozen.fields();
    let half_saved = [fields[..4].concat(), fields[4][..20].to_vec()].concat();
    let lost_tail = fields[..fields.len() - 1].concat();
    let broken_pair = Archive { pairs: vec![(9, 9)], ..dozen.clone() }.bytes();
    let mut other = dozen;
    other.operations[2] = other.curve.opposite(&other.operations[2]);
    [
        ("half-saved", half_saved),
        ("lost-tail", lost_tail),
        ("other-operation", other.bytes()),
        ("broken-pair", broken_pair),
    ]
}

/// The walk report of `low-degrees` by a tool that takes classes of degree under three for their own halves.
pub fn other_report() -> String {
    let (_, archive) = low_degrees();
    let undone = |seal: &Class, operation: &Class| {
        let difference = archive.curve.difference(seal, operation);
        if difference.degree() < 3 {
            difference
        } else {
            half(&archive.curve, &difference)
        }
    };
    archive.report_by(undone)
}

#[cfg(test)]
mod tests {
    use super::*;
    use crate::archive::report;
    use crate::suppression::{suppress, GROWTH};

    /// The walk of an archive that was committed forward ends in the first seal.
    #[test]
    fn first_seals() {
        for (first, archive) in [dozen(), full(), low_degrees(), views(), bends(false), bends(true)] {
            assert_eq!(archive.walk().last(), Some(&first));
        }
        assert_eq!(full().1.operations.len(), 1024);
        assert_eq!(full().1.drawing.len(), 38);
    }

    #[test]
    fn letters() {
        let [_, (_, empty), (_, dozen), _, _, (_, views), ..] = samples();
        assert_eq!(report(&empty.bytes()).lines().count(), 2);
        assert!(report(&empty.bytes()).starts_with("walk 0\n0 . 3:"));
        let dozen = report(&dozen.bytes());
        let of_lines = |report: &str| {
            report.lines().skip(1).map(|line| line.split(' ').nth(1).unwrap()).collect::<Vec<_>>().concat()
        };
        assert_eq!(of_lines(&dozen), ".--R-MMRR--M-");
        assert!(dozen.lines().next_back().unwrap().starts_with("12 - 0::"));
        assert_eq!(of_lines(&report(&views.bytes())), ".MMR--MRR-MMM-MM");
    }

    /// Every case of halving, by the degrees of a class and of its half, newest first.
    #[test]
    fn halving_cases() {
        let (_, archive) = low_degrees();
        let halves = archive.walk()[1..].to_vec();
        let cases: Vec<(usize, usize)> =
            halves.iter().map(|half| (archive.curve.double(half).degree(), half.degree())).collect();
        assert_eq!(cases, [(3, 3), (2, 3), (1, 3), (3, 2), (2, 1), (0, 0)]);
    }

    #[test]
    fn failing_archives() {
        let [(_, half_saved), (_, lost_tail), (_, other), (_, broken_pair)] = failures();
        assert_eq!(report(&half_saved), "refused 105\n");
        assert_eq!(report(&lost_tail), "refused 102\n");
        assert_eq!(report(&broken_pair), "refused 122\n");
        let good = report(&dozen().1.bytes());
        assert!(good.contains(release_seal().trim_end()));
        assert!(!report(&other).contains(release_seal().trim_end()));
        assert_ne!(other_report(), report(&low_degrees().1.bytes()));
    }

    /// What the call writes for one of the two archives with pairs is the other; two operations are held and no other.
    #[test]
    fn suppressed_bend() {
        let [before, after] = [false, true].map(|suppressed| bends(suppressed).1.bytes());
        let answer = |k| suppress(&before, k, before.len() + GROWTH);
        assert_eq!(answer(SUPPRESSED as u64), Ok(after.clone()));
        for k in 1..=6 {
            assert_eq!(answer(k).err(), if k <= 2 { Some(124) } else { None });
        }
        assert_eq!(suppress(&after, 1, 1000), Err(124));
    }
}
