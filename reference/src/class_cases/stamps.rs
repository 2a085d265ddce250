//! Classes of stamps (document 02, request 2). These cases are made when they are run, and not stored.

use super::{Case, CurveValues, NEUTRAL};
use crate::field::{BENCH, WIDE};
use crate::random::Random;
use crate::stamp::stamp_limit;

fn on(curve: CurveValues, stamps: impl IntoIterator<Item = u64>) -> Vec<Case> {
    stamps.into_iter().map(|stamp| Case::stamp(curve, stamp, NEUTRAL)).collect()
}

/// Every stamp of the bench field on a curve of it, and five that are too large.
pub fn every_stamp(curve: CurveValues) -> Vec<Case> {
    on(curve, [0, 1, 2, 3, 4, 5, 31, 1 << 58, u64::MAX])
}

/// Every stamp on 1,058 curves of the bench field, with coefficients of all kinds.
pub fn bench() -> Vec<Case> {
    let curves = (0..1 << 15).step_by(31);
    curves.flat_map(|bits| on(CurveValues::new(BENCH, bits >> 10, bits >> 5 & 31, bits & 31), 0..4)).collect()
}

/// The first 64 stamps, the last 64, 120 drawn ones and two that are too large on each of sixteen drawn curves over
/// GF(2^61).
pub fn wide() -> Vec<Case> {
    let mut random = Random::new(66);
    let limit = stamp_limit(WIDE);
    let mut cases = vec![];
    for _ in 0..16 {
        let [f3, f1, f0] = [0; 3].map(|_| random.element(WIDE));
        let curve = CurveValues::new(WIDE, f3, f1, f0);
        cases.extend(on(curve, (0..64).chain(limit - 64..=limit)));
        cases.extend(on(curve, (0..120).map(|_| random.number() >> 6)));
        cases.extend(on(curve, [u64::MAX]));
    }
    cases
}

#[cfg(test)]
mod tests {
    use super::*;
    use std::collections::HashSet;

    fn count(cases: &[Case], line: &str) -> usize {
        cases.iter().filter(|case| case.line == line).count()
    }

    #[test]
    fn stamps_of_one_curve() {
        let cases = every_stamp(CurveValues::new(BENCH, 1, 1, 0));
        assert_eq!(cases.len(), 9);
        assert_eq!(count(&cases, "refused 115\n"), 5);
        assert_eq!(count(&cases, "refused 116\n"), 1);
    }

    /// The numbers that tests/conformance counts; the classes of one curve are all different.
    #[test]
    fn stamps_of_many_curves() {
        for (cases, on_a_curve, too_large) in [(bench(), 4, 0), (wide(), 250, 2)] {
            assert!(count(&cases, "refused 116\n") >= 20, "{}", count(&cases, "refused 116\n"));
            for of_curve in cases.chunks(on_a_curve) {
                assert_eq!(of_curve.len(), on_a_curve);
                assert!(of_curve.iter().all(|case| case.curve == of_curve[0].curve));
                assert_eq!(count(of_curve, "refused 115\n"), too_large);
                let accepted = of_curve.iter().filter(|case| !case.line.starts_with("refused"));
                let lines: Vec<&str> = accepted.map(|case| case.line.as_str()).collect();
                assert_eq!(lines.iter().collect::<HashSet<_>>().len(), lines.len());
            }
        }
    }
}
