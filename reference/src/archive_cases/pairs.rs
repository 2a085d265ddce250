//! What follows an archive's operations: the field 0x48 at each edge of its rules, of archives of 0, 1, 2, 3 and 1,024
//! operations over both fields.

use super::made::Made;
use super::ArchiveCase;
use crate::archive::Archive;
use crate::field::{BENCH, WIDE};
use crate::jacobian::{Class, Curve};
use crate::stored::{pairs_field, Pair, COUNT_LIMIT, PAIRS, PAIRS_LIMIT};
use std::collections::HashSet;

/// An archive of n operations without pairs. Of 1,024 most are neutral, so that it stays short; the first three, the
/// last two and every hundredth are not.
fn archive(curve: &Curve, n: u16) -> Made {
    let x = curve.point(0).expect("x^7 has a root");
    let class = |i: u16| if i < 4 || i % 100 == 0 || i + 1 >= n { x.clone() } else { Class::neutral() };
    let operations: Vec<Class> = (1..=n).map(class).collect();
    Made::new(curve, b"EDGE", x.clone(), &operations, vec![])
}

/// The first of all pairs, in their order.
fn first_pairs(number: usize) -> Vec<Pair> {
    (2..).flat_map(|later| (1..later).map(move |earlier| (later, earlier))).take(number).collect()
}

/// Lists of pairs at the edges of n operations.
fn lists(n: u16) -> Vec<Vec<Pair>> {
    let below = n.saturating_sub(1);
    let mut lists: Vec<Vec<Pair>> = vec![];
    let numbers = [0, 1, 2, 3, below, n, n + 1, n + 2, 256 + n, 256, 32768, 65535];
    for later in numbers {
        lists.extend(numbers.iter().map(|&earlier| vec![(later, earlier)]));
    }
    let good = [(2, 1), (3, 1), (3, 2), (below, 1), (n, 1), (n, 2), (n, below)];
    // two in either order, two equal ones, and three of which one breaks the order
    for first in good {
        for second in good {
            lists.push(vec![first, second]);
            lists.push(vec![first, second, first]);
            lists.push(vec![first, second, second]);
            lists.push(vec![first, first, second]);
        }
    }
    // a pair that breaks a rule by itself, in each of three places
    for wrong in [(0, 0), (2, 0), (2, 2), (2, 3), (n, n), (n, 0), (below, n), (n + 1, 1), (n + 1, n)] {
        for at in 0..3 {
            let mut list = vec![(2, 1), (3, 1)];
            list.insert(at, wrong);
            lists.push(list);
        }
    }
    // as many as there can be, one fewer and one more
    for number in [PAIRS_LIMIT - 1, PAIRS_LIMIT, PAIRS_LIMIT + 1] {
        let many = first_pairs(number);
        let with = |at: usize, pair: Pair| {
            let mut list = many.clone();
            list[at] = pair;
            list
        };
        let last = number - 1;
        lists.extend([with(last, many[last - 1]), with(last, (n, below)), with(last, (n + 1, 1))]);
        lists.extend([with(0, (1, 1)), with(0, (2, 0)), with(number / 2, many[number / 2 + 1])]);
        lists.push(many);
    }
    lists
}

/// The lists of few pairs that are accepted.
fn good_lists(n: u16) -> Vec<Vec<Pair>> {
    let lists: Vec<Vec<Pair>> =
        vec![vec![(2, 1)], vec![(2, 1), (3, 1)], vec![(3, 1), (3, 2)], vec![(n, n.max(1) - 1)]];
    let good = |list: &Vec<Pair>| list.iter().all(|&(later, earlier)| earlier > 0 && earlier < later && later <= n);
    lists.into_iter().filter(good).collect()
}

/// The bytes after the operations.
fn tails(n: u16) -> Vec<Vec<u8>> {
    let mut tails: Vec<Vec<u8>> = vec![vec![]];
    tails.extend(lists(n).iter().map(|list| pairs_field(list)));
    // heads that are cut short, and lengths with no body, with some of it, with all of it and with one byte more
    tails.extend([vec![PAIRS], vec![PAIRS, 0], vec![PAIRS, 0x20], vec![PAIRS, 0xff]]);
    for length in (0..10usize).chain([8188, 8191, 8192, 8193, 8196, 8200, 65532, 65535]) {
        let [high, low] = (length as u16).to_be_bytes();
        let full = if length < 9000 { length } else { 9000 };
        for body in [0, 1, 3, 4, full.saturating_sub(1), full, full + 1] {
            tails.push([vec![PAIRS, high, low], vec![0; body]].concat());
        }
    }
    // other tags, alone and with a body of pairs, all of them in one place
    for tag in (0..=255).filter(|tag| n == 2 || [0, 0x08, 0x44, 0x46, 0x47, 0x49, 0x4a, 0xff].contains(tag)) {
        tails.extend([vec![tag], [&[tag][..], &pairs_field(&[(2, 1)])[1..]].concat()]);
    }
    for list in good_lists(n) {
        let field = pairs_field(&list);
        tails.extend((0..field.len()).map(|length| field[..length].to_vec()));
        for more in [&[0][..], &[0x44], &[PAIRS], &[PAIRS, 0, 0], &[0; 4], &[0; 60]] {
            tails.push([&field, more].concat());
        }
        tails.push([&field[..], &field].concat());
    }
    // broken pairs in a body that is cut short, or with something after it
    for list in [vec![(0, 0)], vec![(3, 3), (2, 1)], vec![(n + 1, 1)], vec![(2, 1), (2, 1)]] {
        let field = pairs_field(&list);
        tails.extend((3..field.len()).map(|length| field[..length].to_vec()));
        tails.push([&field, &[PAIRS][..]].concat());
    }
    let mut met = HashSet::new();
    tails.retain(|tail| met.insert(tail.clone()));
    tails
}

/// Each of these with k at its edges.
pub fn cases() -> Vec<ArchiveCase> {
    let mut cases = vec![];
    for field in [BENCH, WIDE] {
        let curve = Curve::new(field, 0, 0, 0);
        for n in [0, 1, 2, 3, COUNT_LIMIT] {
            let Made { first, archive } = archive(&curve, n);
            for (i, tail) in tails(n).into_iter().enumerate() {
                let n = n as u64;
                let numbers = [1, 2, n.saturating_sub(1), n, 0, n + 1];
                let input = [archive.bytes(), tail].concat();
                let mut met = HashSet::new();
                let mut different = |k: &&u64| met.insert(**k);
                if let Ok(archive) = Archive::read(&input) {
                    let made = Made { first: first.clone(), archive };
                    let all = numbers.iter().filter(different);
                    cases.extend(all.map(|&k| ArchiveCase::of_made_in_room(&made, k)));
                } else {
                    // an operation and a number that is none
                    let two = [numbers[i % 4], numbers[4 + i % 2]];
                    let two = two.iter().filter(|k| different(k));
                    cases.extend(two.map(|&k| ArchiveCase::in_room(input.clone(), k)));
                }
            }
        }
    }
    cases
}
