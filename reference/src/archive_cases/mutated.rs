//! Drawn archives, numbers k and output lengths, most of the archives mutated.

use super::made::{drawn, Made, Variety};
use super::ArchiveCase;
use crate::byte_cases::mutation::mutated;
use crate::byte_cases::pairs::{change_pairs, drawn_pairs};
use crate::byte_cases::pool::{pools, Pool};
use crate::random::Random;
use crate::suppression::GROWTH;

/// Cases without end.
pub struct Mutated {
    random: Random,
    pools: Vec<Pool>,
}

impl Mutated {
    pub fn new() -> Mutated {
        Mutated { random: Random::new(103), pools: pools() }
    }
}

impl Default for Mutated {
    fn default() -> Mutated {
        Mutated::new()
    }
}

/// An archive of up to eight operations that is not mutated yet.
fn archive(random: &mut Random, pool: &Pool) -> Made {
    let n = random.below(9);
    let degree = random.below(3);
    let variety = *random.pick(&[
        Variety::Any,
        Variety::Any,
        Variety::Views,
        Variety::Neighbours,
        Variety::Low,
        Variety::LowSeal(degree),
        Variety::LowResult(degree),
    ]);
    let number = if random.below(4) == 0 { 0 } else { 1 + random.below(n + 1) };
    let pairs = drawn_pairs(random, n as u16, number);
    drawn(random, pool, n, variety, pairs)
}

/// One of the operations, mostly.
fn number_of_operation(random: &mut Random, n: u64) -> u64 {
    match random.below(16) {
        0 => *random.pick(&[0, n + 1, n + 2]),
        1 => *random.pick(&[256 + n, 1 << 16 | n, 1 << 32 | n, 1 << 63 | n, u64::MAX]),
        _ => 1 + random.below(n.max(1) as usize) as u64,
    }
}

/// Mostly enough, else at the edge and below.
fn output_length(random: &mut Random, input_length: usize) -> usize {
    let enough = input_length + GROWTH;
    match random.below(24) {
        0 => enough - 1,
        1 => random.below(enough + 20),
        2 => *random.pick(&[0, 1, GROWTH - 1, GROWTH, input_length]),
        3..=15 => enough,
        _ => enough + random.below(50),
    }
}

impl Iterator for Mutated {
    type Item = ArchiveCase;

    fn next(&mut self) -> Option<ArchiveCase> {
        let random = &mut self.random;
        let pool = random.pick(&self.pools);
        let made = archive(random, pool);
        let mut changed = made.archive.clone();
        if random.below(6) == 0 {
            change_pairs(random, made.n() as u16, &mut changed.pairs);
        }
        let input = mutated(random, changed.fields(), pool);
        let k = number_of_operation(random, made.n());
        let length = output_length(random, input.len());
        if input == made.archive.bytes() {
            return Some(ArchiveCase::of_made(&made, k, length));
        }
        Some(ArchiveCase::new(input, k, length))
    }
}
