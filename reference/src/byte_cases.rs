//! Records of the eleven byte calls and archives, most of them mutated, with what is expected of the calls and of the
//! walk report for them. They are made by a generator with a fixed seed, so that the first n are the same in every run.
//!
//! - `pool`: curves over both fields with classes of every degree, from which the records are made.
//! - `mutation`: what is done to the fields and to the bytes of a record.
//! - `pairs`: pairs of operations, which an archive may end in, in their order and otherwise.

pub mod mutation;
pub mod pairs;
pub mod pool;

use crate::archive::{report, Archive};
use crate::calls::{answer, seal_after_commit, Call, CALLS};
use crate::field::{BENCH, WIDE};
use crate::jacobian::{Class, Curve};
use crate::multiples::{HALVINGS_LIMIT, MULTIPLE_LIMIT};
use crate::random::Random;
use crate::stamp::stamp_limit;
use crate::stored::{class_field, curve_fields, operation_field, register_fields, DRAWING_LIMIT};
use mutation::mutated;
use pairs::{change_pairs, drawn_pairs};
use pool::{pools, Pool};

/// A call, and what is expected of it: the answer, and the bytes written, of which a refusal has none.
#[derive(Clone, Debug, PartialEq, Eq)]
pub struct ByteCase {
    pub call: Call,
    pub input: Vec<u8>,
    pub output_length: usize,
    pub answer: u32,
    pub written: Vec<u8>,
}

impl ByteCase {
    pub fn new(call: Call, input: Vec<u8>, output_length: usize) -> ByteCase {
        let (answer, written) = answer(call, &input, output_length);
        ByteCase { call, input, output_length, answer, written }
    }

    /// The case in a file: the call's number in one byte; the number beside the input, 0 where the call takes none, in eight,
    /// high byte first; the lengths of output and input, and the answer, in four each; the input; the bytes written, which
    /// are as many as the answer says where it is no refusal.
    pub fn bytes(&self) -> Vec<u8> {
        let numbers = [self.output_length as u32, self.input.len() as u32, self.answer].map(u32::to_be_bytes);
        let beside = self.call.beside().to_be_bytes();
        [&[self.call.number()], &beside[..], &numbers.concat(), &self.input, &self.written].concat()
    }
}

/// Counts, those at the edges often.
fn count(random: &mut Random) -> u16 {
    match random.below(4) {
        0 => *random.pick(&[0, 1, 1023, 1024]),
        1 => *random.pick(&[2, 255, 256, 1022]),
        _ => random.below(1025) as u16,
    }
}

/// Released steps beside a count, those at the edges often, and some that are too high.
fn released(random: &mut Random, count: u16) -> u16 {
    match random.below(8) {
        0 | 1 => count,
        2 => 0,
        3 => count.saturating_sub(1),
        4 => *random.pick(&[count + 1, 1025, 65535]),
        _ => random.below(count as usize + 1) as u16,
    }
}

/// Stamps of the pool's field, those at its edges and those without a class often, and numbers that are too large.
fn stamp(random: &mut Random, pool: &Pool) -> u64 {
    let limit = stamp_limit(pool.curve.field);
    match random.below(8) {
        0 => *random.pick(&[0, 1, 2, limit - 1]),
        1 => *random.pick(&[limit, limit + 1, 31, 32, 1 << 58, 1 << 61, 1 << 63, u64::MAX]),
        2..=4 if !pool.stamps_without_class.is_empty() => *random.pick(&pool.stamps_without_class),
        _ => random.number() % limit,
    }
}

/// Factors, those at the edges often, and numbers that are too large.
fn factor(random: &mut Random) -> u64 {
    match random.below(6) {
        0 => *random.pick(&[0, 1, 2, 3]),
        1 => *random.pick(&[MULTIPLE_LIMIT, MULTIPLE_LIMIT + 1, 1 << 63, u64::MAX]),
        2 => MULTIPLE_LIMIT - 1,
        3 => random.below(100) as u64,
        _ => random.number() % MULTIPLE_LIMIT,
    }
}

/// Numbers of halvings, likewise.
fn times_halved(random: &mut Random) -> u64 {
    match random.below(4) {
        0 => *random.pick(&[0, 1, 2, 63, HALVINGS_LIMIT]),
        1 => *random.pick(&[HALVINGS_LIMIT + 1, 1 << 32, u64::MAX]),
        _ => random.below(HALVINGS_LIMIT as usize + 1) as u64,
    }
}

/// The number beside the input, 0 where the call takes none.
fn number_beside(random: &mut Random, pool: &Pool, call: Call) -> u64 {
    match call {
        Call::Stamp(_) => stamp(random, pool),
        Call::Multiple(_) => factor(random),
        Call::Halvings(_) => times_halved(random),
        _ => 0,
    }
}

/// The fields of a record that is in stored form.
fn record(random: &mut Random, pool: &Pool, call: Call) -> Vec<Vec<u8>> {
    let mut fields = curve_fields(&pool.curve).to_vec();
    let (first, second) = (random.pick(&pool.classes), random.pick(&pool.classes));
    match call {
        Call::Commit | Call::Undo | Call::Release => {
            // half of the undos take back what was a commit, and a quarter of the commits lead to a class of the pool
            let known = random.below(4);
            let seal = match call {
                Call::Undo if known < 2 => seal_after_commit(&pool.curve, first, second),
                _ => first.clone(),
            };
            let operation = match call {
                Call::Commit if known == 0 => pool.curve.difference(second, &pool.curve.double(first)),
                _ => second.clone(),
            };
            let count = count(random);
            fields.extend(register_fields(count, released(random, count), &seal));
            if call.takes_operation() {
                fields.push(operation_field(&operation));
            }
        }
        Call::Sum => {
            let second = match random.below(4) {
                0 => first.clone(),
                1 => pool.curve.opposite(first),
                _ => second.clone(),
            };
            fields.extend([class_field(first), class_field(&second)]);
        }
        Call::Stamp(_) => {}
        _ => fields.push(class_field(first)),
    }
    fields
}

/// The length of an output area: mostly enough, else at the edge and below.
fn output_length(random: &mut Random, call: Call) -> usize {
    let bound = call.output_bound();
    if bound == 0 {
        return 0;
    }
    match random.below(12) {
        0 => *random.pick(&[0, 1, 50, 60, bound - 1]),
        1 => random.below(bound + 20),
        2..=6 => bound,
        _ => bound + random.below(50),
    }
}

/// Cases without end.
pub struct Mutated {
    random: Random,
    pools: Vec<Pool>,
}

impl Mutated {
    pub fn new() -> Mutated {
        Mutated { random: Random::new(71), pools: pools() }
    }
}

impl Default for Mutated {
    fn default() -> Mutated {
        Mutated::new()
    }
}

impl Iterator for Mutated {
    type Item = ByteCase;

    fn next(&mut self) -> Option<ByteCase> {
        let random = &mut self.random;
        let pool = random.pick(&self.pools);
        let call = *random.pick(&CALLS);
        let call = call.with_beside(number_beside(random, pool, call));
        let fields = record(random, pool, call);
        let input = mutated(random, fields, pool);
        let length = output_length(random, call);
        Some(ByteCase::new(call, input, length))
    }
}

/// Releases with one byte changed: records that are accepted, over both fields and with seals of degree 0 and 3, each
/// byte of which takes every other value.
pub fn changed_releases() -> impl Iterator<Item = ByteCase> {
    let mut records = vec![];
    for field in [BENCH, WIDE] {
        let curve = Curve::new(field, 0, 0, 0);
        let cube = Class::new(vec![0, 0, 0, 1], vec![1]);
        for seal in [Class::neutral(), cube] {
            let [degree, coefficients] = curve_fields(&curve);
            records.push([degree, coefficients, register_fields(0x0107, 0x0103, &seal).concat()].concat());
        }
    }
    records.into_iter().flat_map(|record| {
        let changes = (0..record.len()).flat_map(|at| (1..=255u8).map(move |by| (at, by)));
        changes.map(move |(at, by)| {
            let mut input = record.clone();
            input[at] ^= by;
            ByteCase::new(Call::Release, input, Call::Release.output_bound())
        })
    })
}

/// Some archives, mutated or not and with pairs or without, each with its report.
pub fn archives(number: usize) -> Vec<(Vec<u8>, String)> {
    let mut random = Random::new(72);
    let pools = pools();
    let mut one = || {
        let pool = random.pick(&pools);
        let count = random.below(9);
        let mut operations: Vec<Class> = vec![];
        for _ in 0..count {
            let next = match (random.below(5), operations.last()) {
                (0, Some(last)) => pool.curve.opposite(last),
                (1, _) => Class::neutral(),
                _ => random.pick(&pool.classes).clone(),
            };
            operations.push(next);
        }
        let drawing: Vec<u8> =
            (0..random.below(DRAWING_LIMIT + 1)).map(|_| 0x20 + random.below(95) as u8).collect();
        let seal = random.pick(&pool.classes).clone();
        let number = random.below(2 * (count + 1)).saturating_sub(count);
        let mut pairs = drawn_pairs(&mut random, count as u16, number);
        if random.below(6) == 0 {
            change_pairs(&mut random, count as u16, &mut pairs);
        }
        let archive = Archive { curve: pool.curve.clone(), drawing, seal, operations, pairs };
        let bytes = mutated(&mut random, archive.fields(), pool);
        let report = report(&bytes);
        (bytes, report)
    };
    (0..number).map(|_| one()).collect()
}

#[cfg(test)]
mod tests {
    use super::*;
    use std::collections::HashSet;
    use std::sync::OnceLock;

    /// The first ten thousand, which are made once.
    fn ten_thousand() -> &'static [ByteCase] {
        static CASES: OnceLock<Vec<ByteCase>> = OnceLock::new();
        CASES.get_or_init(|| Mutated::new().take(10_000).collect())
    }

    #[test]
    fn bytes_of_a_case() {
        let curve = Curve::new(BENCH, 0, 0, 0);
        let input = [curve_fields(&curve).concat(), class_field(&Class::neutral())].concat();
        let case = ByteCase::new(Call::Double, input.clone(), 51);
        let numbers = vec![0, 0, 0, 51, 0, 0, 0, 34, 0, 0, 0, 3];
        let expected = [vec![3], vec![0; 8], numbers, input, vec![0x43, 0, 0]].concat();
        assert_eq!(case.bytes(), expected);
        let stamp = ByteCase::new(Call::Stamp(0x0102030405060708), vec![], 51).bytes();
        assert_eq!(stamp, [8, 1, 2, 3, 4, 5, 6, 7, 8, 0, 0, 0, 51, 0, 0, 0, 0, 0, 0, 0, 102]);
    }

    /// Among the first ten thousand every call meets every refusal that it can give, and writes classes of every degree
    /// over both fields.
    #[test]
    fn every_outcome_of_every_call() {
        let cases = ten_thousand();
        for call in CALLS {
            let made = || cases.iter().filter(|case| case.call.with_beside(0) == call);
            let met: HashSet<u32> = made().map(|case| case.answer).collect();
            let mut expected = HashSet::from([102, 103, 104, 105, 106, 107, 112]);
            expected.extend(match call {
                Call::Membership => vec![110, 111, 0],
                Call::Commit => vec![101, 109, 110, 111, 114, 120, 13, 29, 45, 61],
                Call::Undo => vec![101, 109, 110, 111, 113, 120, 121, 13, 29, 45, 61],
                Call::Release => vec![101, 109, 110, 111, 120, 13, 29, 45, 61],
                Call::Stamp(_) => vec![101, 115, 116, 19],
                Call::Multiple(_) => vec![101, 110, 111, 118, 3, 19, 35, 51],
                Call::Halvings(_) => vec![101, 110, 111, 119, 3, 19, 35, 51],
                _ => vec![101, 110, 111, 3, 19, 35, 51],
            });
            assert_eq!(met, expected, "{call:?}");
            for degree in [5, 61] {
                let accepted = |case: &&ByteCase| case.answer <= 100 && case.input[3] == degree;
                assert!(made().filter(accepted).count() > 50, "{call:?} {degree}");
            }
        }
    }

    /// A release with one byte changed meets every refusal but 101 and 102, and where it is accepted the released step
    /// is the count.
    #[test]
    fn releases_with_one_byte_changed() {
        let cases: Vec<ByteCase> = changed_releases().collect();
        assert_eq!(cases.len(), 2 * 255 * (44 + 92));
        let met: HashSet<u32> = cases.iter().map(|case| case.answer).collect();
        assert_eq!(met, HashSet::from([103, 104, 105, 106, 107, 109, 110, 111, 112, 120, 13, 61]));
        for case in cases.iter().filter(|case| case.answer <= 100) {
            assert_eq!(case.written[3..5], case.written[8..10]);
        }
    }

    /// Among the first ten thousand stamps are refused with 115 and with 116 over both fields, the latter often, and one
    /// that is too large with 112.
    #[test]
    fn refused_stamps() {
        let cases = ten_thousand();
        let stamps = |answer, degree| {
            let wanted =
                |case: &&ByteCase| case.call.number() == 8 && case.answer == answer && case.input[3] == degree;
            cases.iter().filter(wanted).collect::<Vec<_>>()
        };
        for degree in [5, 61] {
            for answer in [115, 116] {
                assert!(!stamps(answer, degree).is_empty(), "{answer} {degree}");
            }
        }
        assert!(
            stamps(116, 5).len() + stamps(116, 61).len() >= 20,
            "stamps without a class are not met by chance alone"
        );
        let too_large = |case: &&ByteCase| case.call.beside() >= 1 << 58;
        assert!(stamps(112, 5).into_iter().chain(stamps(112, 61)).any(|case| too_large(&case)));
    }

    /// Among the first ten thousand multiples and halvings are refused with 118 and 119 over both fields, and some whose
    /// number is too large with 112; both edges of the numbers are met.
    #[test]
    fn refused_numbers() {
        let cases = ten_thousand();
        let met = |wanted: &dyn Fn(&ByteCase) -> bool| cases.iter().any(wanted);
        for (call, refusal, last) in [(9, 118, MULTIPLE_LIMIT - 1), (10, 119, HALVINGS_LIMIT)] {
            for degree in [5, 61] {
                let answered = |case: &ByteCase, beside, answer| {
                    case.call.number() == call
                        && case.call.beside() == beside
                        && case.answer == answer
                        && case.input[3] == degree
                };
                assert!(met(&|case| answered(case, last + 1, refusal)), "{call} {degree}");
                assert!(met(&|case| answered(case, u64::MAX, refusal)), "{call} {degree}");
                assert!(met(&|case| answered(case, last, 51)), "{call} {degree}");
            }
            let too_large = |case: &ByteCase| case.call.number() == call && case.call.beside() > last;
            assert!(met(&|case| too_large(case) && case.answer == 112), "{call}");
        }
    }

    /// Among the first three hundred archives the report meets every refusal that it can give, and every letter.
    #[test]
    fn every_outcome_of_the_report() {
        let made = archives(300);
        let reports: Vec<String> = made.iter().map(|(_, report)| report.clone()).collect();
        for number in (102..=112).chain([122]) {
            assert!(reports.contains(&format!("refused {number}\n")), "{number}");
        }
        let with_pairs =
            |(bytes, _): &&(Vec<u8>, String)| Archive::read(bytes).map_or(false, |read| !read.pairs.is_empty());
        assert!(made.iter().filter(with_pairs).count() > 25);
        for letter in [" . ", " R ", " M ", " - "] {
            assert!(reports.iter().filter(|report| report.contains(letter)).count() > 5, "{letter}");
        }
    }
}
