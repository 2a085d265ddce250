//! Archives with every k, and the longest archives.

use super::made::{drawn, Made, Variety};
use super::ArchiveCase;
use crate::byte_cases::pairs::drawn_pairs;
use crate::byte_cases::pool::{pools, Pool};
use crate::field::{BENCH, WIDE};
use crate::jacobian::Class;
use crate::random::Random;
use crate::stored::{Pair, COUNT_LIMIT, DRAWING_LIMIT, PAIRS_LIMIT};
use crate::suppression::GROWTH;

/// Numbers that are no operation's, and would be one's if some of their bytes were left out.
const FAR: [u64; 4] = [1 << 16 | 1, 1 << 32 | 1, 1 << 63 | 1, u64::MAX];

/// Every k of an archive, some beside, and one with an output that is too short.
fn every_k(random: &mut Random, made: &Made) -> Vec<ArchiveCase> {
    let length = made.archive.bytes().len();
    let mut cases: Vec<ArchiveCase> = (0..=made.n() + 1)
        .chain(FAR)
        .map(|k| {
            let more = *random.pick(&[0, 0, 0, 1, 40]);
            ArchiveCase::of_made(made, k, length + GROWTH + more)
        })
        .collect();
    let k = random.below(made.n() as usize + 2) as u64;
    cases.push(ArchiveCase::of_made(made, k, length + GROWTH - 1));
    cases
}

/// Archives of 0 to 12 operations, and some of 64, over both fields, with pairs and without.
pub fn all_k() -> Vec<ArchiveCase> {
    let mut random = Random::new(101);
    let pools = pools();
    let mut cases = vec![];
    for field in [BENCH, WIDE] {
        let of_field: Vec<&Pool> = pools.iter().filter(|pool| pool.curve.field == field).collect();
        for n in (0..=12).chain([64]) {
            for i in 0..6 {
                for with_pairs in [false, true] {
                    let pool = *random.pick(&of_field);
                    let degree = random.below(3);
                    let variety = [
                        Variety::Any,
                        Variety::Views,
                        Variety::Neighbours,
                        Variety::Low,
                        Variety::LowSeal(degree),
                        Variety::LowResult(degree),
                    ][i];
                    let number = if with_pairs { 1 + random.below(n.max(1)) } else { 0 };
                    let pairs = drawn_pairs(&mut random, n as u16, number);
                    let made = drawn(&mut random, pool, n, variety, pairs);
                    cases.extend(every_k(&mut random, &made));
                }
            }
        }
    }
    cases
}

/// 1,024 operations and 2,048 pairs over both fields: of any classes with drawn pairs, and all of degree 3, with the
/// longest drawing number and pairs whose earlier operations have odd numbers.
pub fn full() -> Vec<ArchiveCase> {
    let mut random = Random::new(102);
    let pools = pools();
    let n = COUNT_LIMIT;
    let mut cases = vec![];
    for field in [BENCH, WIDE] {
        let pool = pools.iter().rev().find(|pool| pool.curve.field == field).expect("there is one of each field");
        let pairs = drawn_pairs(&mut random, n, PAIRS_LIMIT);
        let any = drawn(&mut random, pool, n as usize, Variety::Any, pairs);

        let longest: Vec<Class> = pool.classes.iter().filter(|class| class.degree() == 3).cloned().collect();
        let mut operations: Vec<Class> = (0..n).map(|_| random.pick(&longest).clone()).collect();
        let odd = |pairs: Vec<Pair>| pairs.into_iter().filter(|(_, earlier)| earlier % 2 == 1).take(PAIRS_LIMIT);
        let pairs = odd(drawn_pairs(&mut random, n, 3 * PAIRS_LIMIT)).collect();
        let first = random.pick(&longest).clone();
        let drawing = [b'z'; DRAWING_LIMIT];
        let mut made = Made::new(&pool.curve, &drawing, first.clone(), &operations, vec![]);
        while made.archive.seal.degree() < 3 {
            operations[0] = random.pick(&longest).clone();
            made = Made::new(&pool.curve, &drawing, first.clone(), &operations, vec![]);
        }
        made.archive.pairs = pairs;

        for made in [any, made] {
            for k in (0..6).chain([255, 256, 257, 511, 512, 513]).chain(1020..=1026).chain(FAR) {
                cases.push(ArchiveCase::of_made_in_room(&made, k));
            }
            cases.push(ArchiveCase::of_made(&made, 1024, made.archive.bytes().len() + GROWTH - 1));
        }
    }
    cases
}
