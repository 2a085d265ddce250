//! Archives rich in neutral operations, as which view changes are stored, with the reports that are expected for them: every
//! list of up to so many operations out of the neutral class, a class, its opposite and another class, over both fields.

use crate::archive::Archive;
use crate::field::{BENCH, WIDE};
use crate::jacobian::{Class, Curve};
use crate::random::Random;

/// Every list of up to so many numbers below 4.
fn lists(most: u32) -> Vec<Vec<usize>> {
    let of_length = |length| (0..4usize.pow(length)).map(move |n| (0..length).map(|i| n >> (2 * i) & 3).collect());
    (0..=most).flat_map(of_length).collect()
}

/// For every list an archive on a curve whose operations are, newest first, the neutral class for 0, a class for 1, its
/// opposite for 2, and another class for 3.
fn on_curve(random: &mut Random, curve: Curve, most: u32) -> Vec<(Vec<usize>, Archive)> {
    let point = curve.drawn_point(random);
    let pair = curve.sum(&curve.double(&point), &curve.drawn_point(random));
    let operations = [Class::neutral(), point.clone(), curve.opposite(&point), pair.clone()];
    let seal = curve.sum(&curve.double(&pair), &point);
    let archive = |list: Vec<usize>| {
        let operations = list.iter().map(|&i| operations[i].clone()).collect();
        let (curve, seal) = (curve.clone(), seal.clone());
        (list, Archive { curve, drawing: b"VIEWS".to_vec(), seal, operations, pairs: vec![] })
    };
    lists(most).into_iter().map(archive).collect()
}

/// The same over both fields.
fn on_both(most: u32) -> Vec<(Vec<usize>, Archive)> {
    let mut random = Random::new(74);
    let wide = Curve::drawn(&mut random, WIDE);
    let bench = on_curve(&mut random, Curve::new(BENCH, 0, 0, 0), most);
    bench.into_iter().chain(on_curve(&mut random, wide, most)).collect()
}

/// The archives.
pub fn view_archives(most: u32) -> Vec<Archive> {
    on_both(most).into_iter().map(|(_, archive)| archive).collect()
}

#[cfg(test)]
mod tests {
    use super::*;

    /// The letters by the lists alone. A neutral operation after a neutral one is met often.
    #[test]
    fn letters() {
        let (mut archives, mut neutral_pairs) = (0, 0);
        for (list, archive) in on_both(4) {
            let letter = |i: usize| match (list[i], list.get(i + 1)) {
                (0, _) => 'M',
                (1, Some(2)) | (2, Some(1)) => 'R',
                _ => '-',
            };
            let expected: String = std::iter::once('.').chain((0..list.len()).map(letter)).collect();
            assert_eq!(archive.letters(), expected, "{list:?}");
            archives += 1;
            neutral_pairs += list.windows(2).filter(|next| next == &[0, 0]).count();
        }
        assert_eq!((archives, neutral_pairs), (682, 114));
    }
}
