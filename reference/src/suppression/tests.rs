use super::*;
use crate::byte_cases::pool::{pools, Pool};
use crate::field::{BENCH, WIDE};
use crate::halving::halves_from_doubles;
use crate::multiples::doublings;
use crate::random::Random;
use crate::stored::Pair;

/// An archive of drawn classes that was walked forward from a drawn earliest seal.
fn drawn(random: &mut Random, pool: &Pool, n: usize, pairs: Vec<Pair>) -> (Class, Archive) {
    let mut class = || random.pick(&pool.classes).clone();
    let (first, oldest_first) = (class(), (0..n).map(|_| class()).collect::<Vec<Class>>());
    let seal = walked_forward(&pool.curve, &first, &oldest_first);
    let operations = oldest_first.into_iter().rev().collect();
    (first, Archive { curve: pool.curve.clone(), drawing: b"BENDS".to_vec(), seal, operations, pairs })
}

/// The two ways agree with each other, with the request's rule and with the walk back, on every curve of the pools.
#[test]
fn ways_agree() {
    let mut random = Random::new(91);
    for pool in pools() {
        for n in [1, 2, 5, 9] {
            let (first, archive) = drawn(&mut random, &pool, n, vec![]);
            assert_eq!(archive.walk().last(), Some(&first));
            for k in 1..=n as u64 {
                let made = suppressed_from(&first, &archive, k).unwrap();
                assert_eq!(suppressed(&archive, k), Ok(made.clone()));
                let class = &archive.operations[n - k as usize];
                let moved = doublings(&pool.curve, n as u64 - k, class);
                assert_eq!(made.seal, pool.curve.difference(&archive.seal, &moved));
                assert_eq!(made.walk().last(), Some(&first));
                assert_eq!(suppressed(&made, k), Ok(made.clone()), "what is neutral stays so");
            }
        }
    }
}

/// The earliest seal read off the doubles of all classes of the bench field, and the walk forward from it.
#[test]
fn from_the_table_of_doubles() {
    let mut random = Random::new(92);
    for pool in pools().iter().filter(|pool| pool.curve.field == BENCH).take(3) {
        let halves = halves_from_doubles(&pool.curve, &crate::bench_classes::all_classes(&pool.curve));
        for n in 1..12 {
            let (_, mut archive) = drawn(&mut random, pool, n, vec![]);
            archive.seal = random.pick(&pool.classes).clone();
            let back = |seal: Class, operation: &Class| halves[&pool.curve.difference(&seal, operation)].clone();
            let first = archive.operations.iter().fold(archive.seal.clone(), back);
            for k in 1..=n as u64 {
                assert_eq!(suppressed(&archive, k), suppressed_from(&first, &archive, k));
            }
        }
    }
}

/// f = x^7 over GF(2^61), from the neutral seal: [x, 0], then its opposite [x, 1] twice, each of which leaves the seal
/// [x, 0] as it is. Without the first operation the last seal is three times [x, 1].
#[test]
fn by_hand() {
    let class = |u: &[u64], v: &[u64]| Class::new(u.to_vec(), v.to_vec());
    let (x_0, x_1) = (class(&[0, 1], &[]), class(&[0, 1], &[1]));
    let archive = Archive {
        curve: Curve::new(WIDE, 0, 0, 0),
        drawing: b"A1".to_vec(),
        seal: x_0.clone(),
        operations: vec![x_1.clone(), x_1.clone(), x_0.clone()],
        pairs: vec![(3, 2)],
    };
    assert_eq!(walked_forward(&archive.curve, &Class::neutral(), &archive.oldest_first()), x_0);
    let bytes = archive.bytes();
    let (length, room) = (bytes.len(), bytes.len() + GROWTH);
    let answer = suppress(&bytes, 1, room).unwrap();
    // 4 + 27 + 5 + 5 bytes before the seal
    let mut expected = bytes[..41].to_vec();
    expected.extend([0x43, 0, 48]);
    expected.extend([0; 47]);
    expected.push(1);
    expected.extend(&bytes[41 + 19..length - 7 - 19]);
    expected.extend([0x44, 0, 0]);
    expected.extend([0x48, 0, 4, 0, 3, 0, 2]);
    assert_eq!(answer, expected);
    assert_eq!(answer.len(), length + 32 - 16);
    assert_eq!(suppress(&bytes, 2, room), Err(124));
    // without the last it is twice what was before it, [x, 0]
    let third = Archive::read(&suppress(&bytes, 3, room).unwrap()).unwrap();
    assert_eq!(third.seal, class(&[0, 0, 1], &[]));
    assert_eq!(third.operations, [Class::neutral(), x_1, x_0]);
    let then_second = Archive::read(&suppress(&third.bytes(), 2, room).unwrap()).unwrap();
    assert_eq!(then_second.pairs, [(3, 2)]);
    assert_eq!(then_second.seal, archive.curve.multiple(4, &archive.operations[2]));
}

/// 101, the archive's checks, 123, 124, in this order.
#[test]
fn refusals_in_order() {
    let mut random = Random::new(93);
    let (_, archive) = drawn(&mut random, &pools()[20], 3, vec![(3, 1)]);
    let mut archive = archive;
    archive.operations[0] = archive.curve.drawn_point(&mut random);
    let bytes = archive.bytes();
    let room = bytes.len() + 48;
    for (k, refusal) in [(0, 123), (1, 124), (4, 123), (1 << 16 | 2, 123), (1 << 32 | 2, 123), (u64::MAX, 123)] {
        assert_eq!(suppress(&bytes, k, room), Err(refusal));
        assert_eq!(suppress(&bytes, k, room - 1), Err(101));
        assert_eq!(suppress(&[&bytes[..], &[0]].concat(), k, room), Err(101));
        assert_eq!(suppress(&[&bytes[..], &[0]].concat(), k, room + 1), Err(112));
        assert_eq!(suppress(&bytes[..bytes.len() - 1], k, room), Err(105));
        let mut broken = bytes.clone();
        *broken.last_mut().unwrap() = 3;
        assert_eq!(suppress(&broken, k, room), Err(122));
    }
    assert!(suppress(&bytes, 2, room).is_ok() && suppress(&bytes, 3, room).is_ok());
    for length in 0..48 {
        assert_eq!(suppress(&[], 1, length), Err(101));
    }
    assert_eq!(suppress(&[], 1, 48), Err(102));
    assert!(
        !has_room(usize::MAX, usize::MAX) && !has_room(usize::MAX - 46, 1) && has_room(usize::MAX - 48, usize::MAX)
    );
    let none = Archive { operations: vec![], pairs: vec![], ..archive };
    for k in [0, 1, 2, u64::MAX] {
        assert_eq!(suppress(&none.bytes(), k, 200), Err(123));
    }
}

/// A neutral later operation does not hold, and a neutral earlier one is held as any other.
#[test]
fn held() {
    let mut random = Random::new(94);
    let pool = &pools()[13];
    let pairs = vec![(2, 1), (3, 1), (4, 2), (4, 3)];
    let (_, mut archive) = drawn(&mut random, pool, 5, pairs);
    let point = pool.curve.drawn_point(&mut random);
    let is_held = |neutral: &[usize], archive: &mut Archive| {
        for i in 1..=5 {
            archive.operations[5 - i] = if neutral.contains(&i) { Class::neutral() } else { point.clone() };
        }
        (0..7).filter(|&k| super::is_held(archive, k)).collect::<Vec<u64>>()
    };
    assert_eq!(is_held(&[], &mut archive), [1, 2, 3]);
    assert_eq!(is_held(&[5], &mut archive), [1, 2, 3]);
    assert_eq!(is_held(&[4], &mut archive), [1]);
    assert_eq!(is_held(&[4, 2], &mut archive), [1]);
    assert_eq!(is_held(&[4, 2, 3], &mut archive), []);
    assert_eq!(is_held(&[1, 2, 3], &mut archive), [2, 3]);
}
