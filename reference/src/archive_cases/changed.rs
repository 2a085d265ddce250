//! Accepted archives with pairs, cut at each byte, and with each byte changed.

use super::made::{drawn, Made, Variety};
use super::ArchiveCase;
use crate::byte_cases::pairs::drawn_pairs;
use crate::byte_cases::pool::{pools, Pool};
use crate::field::{Field, BENCH, WIDE};
use crate::random::Random;
use crate::suppression::is_held;

/// The last pool of a field.
fn pool_of(pools: &[Pool], field: Field) -> &Pool {
    pools.iter().rev().find(|pool| pool.curve.field == field).expect("there is one of each field")
}

/// Two archives of each field with pairs, of three operations and of six, each cut before each of its bytes. Operation
/// k, the lowest that is not held, is suppressed.
pub fn truncations() -> Vec<ArchiveCase> {
    let mut random = Random::new(104);
    let pools = pools();
    let mut cases = vec![];
    for field in [BENCH, WIDE] {
        for (n, number) in [(3, 2), (6, 5)] {
            let pairs = drawn_pairs(&mut random, n as u16, number);
            let made = drawn(&mut random, pool_of(&pools, field), n, Variety::Any, pairs);
            let k = (1..).find(|&k| !is_held(&made.archive, k)).expect("the newest is not held");
            let bytes = made.archive.bytes();
            cases.extend((0..bytes.len()).map(|length| ArchiveCase::in_room(bytes[..length].to_vec(), k)));
            cases.push(ArchiveCase::of_made_in_room(&made, k));
        }
    }
    cases
}

/// An archive of each field with three operations, each of one point, and two pairs, of which each byte takes every
/// other value. Operation 2 is suppressed, which is not held as long as the pairs are as they were.
pub fn changes() -> Vec<ArchiveCase> {
    let mut random = Random::new(105);
    let pools = pools();
    let mut cases = vec![];
    for field in [BENCH, WIDE] {
        let curve = &pool_of(&pools, field).curve;
        let mut point = || curve.drawn_point(&mut random);
        let made = Made::new(curve, b"A", point(), &[point(), point(), point()], vec![(2, 1), (3, 1)]);
        let bytes = made.archive.bytes();
        cases.push(ArchiveCase::of_made_in_room(&made, 2));
        for at in 0..bytes.len() {
            for by in 1..=255 {
                let mut input = bytes.clone();
                input[at] ^= by;
                cases.push(ArchiveCase::in_room(input, 2));
            }
        }
    }
    cases
}
