//! Pairs of the field 0x48: drawn ones that keep its rules, and lists that break them.

use crate::random::Random;
use crate::stored::Pair;
use std::collections::BTreeSet;

/// How many pairs there can be of n operations.
fn most(n: u16) -> usize {
    n as usize * n.saturating_sub(1) as usize / 2
}

/// So many pairs of n operations, or all where there are fewer.
pub fn drawn_pairs(random: &mut Random, n: u16, number: usize) -> Vec<Pair> {
    let mut pairs = BTreeSet::new();
    while pairs.len() < number.min(most(n)) {
        let later = 2 + random.below(n as usize - 1);
        pairs.insert((later as u16, 1 + random.below(later - 1) as u16));
    }
    pairs.into_iter().collect()
}

/// One change to a list of pairs of n operations, after which most lists break a rule.
pub fn change_pairs(random: &mut Random, n: u16, pairs: &mut Vec<Pair>) {
    let at = random.below(pairs.len() + 1);
    let number =
        |random: &mut Random| *random.pick(&[0, 1, 2, n.saturating_sub(1), n, n + 1, 256 + n, 1025, 65535]);
    if at == pairs.len() {
        let pair = (number(random), number(random));
        return pairs.push(pair);
    }
    match random.below(5) {
        0 => pairs.insert(at, pairs[at]),
        1 => {
            let next = (at + 1) % pairs.len();
            pairs.swap(at, next);
        }
        2 => pairs[at].0 = number(random),
        3 => pairs[at].1 = number(random),
        _ => pairs[at] = (pairs[at].1, pairs[at].0),
    }
}
