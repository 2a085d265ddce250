//! Every refusal of the calls by value at its edges, and the order of the checks: 106 and 107 for the curve, then 104,
//! 110 and 111 for each class, the first class before the second is begun; for a stamp 115 and 116 after the curve; for a
//! number beside a class 118 or 119 after the class.

use super::{
    Case, ClassValues, CurveValues, CALLS, CALLS_ON_TWO, CALLS_WITH_NUMBER, CURVE, HALF, MEMBERSHIP, NEUTRAL,
    SUBTRACT_AND_HALVE,
};
use crate::field::{Field, BENCH, WIDE};
use crate::multiples::{HALVINGS_LIMIT, MULTIPLE_LIMIT};
use crate::stamp::stamp_limit;

/// No class by its degree, by what stands beyond it, and by the size of its numbers.
pub const NONSENSE: ClassValues = ClassValues { degree: u64::MAX, u: [u64::MAX; 3], v: [u64::MAX; 3] };

/// Is the call one whose answer is not known before it is made: a half of classes that are accepted, and not neutral?
fn open_half(call: u8, curve: CurveValues, a: ClassValues, b: ClassValues) -> bool {
    let accepted = |class: ClassValues| curve.curve().is_ok_and(|curve| class.class(&curve).is_ok());
    match call {
        HALF => accepted(a) && a != NEUTRAL,
        SUBTRACT_AND_HALVE => accepted(a) && accepted(b) && [a, b] != [NEUTRAL; 2],
        _ => false,
    }
}

/// Every call on the class, with the neutral class as the second of the calls on two; the calls on one are given nonsense
/// there.
fn every_call(curve: CurveValues, a: ClassValues) -> Vec<Case> {
    let second = |call| if CALLS_ON_TWO.contains(&call) { NEUTRAL } else { NONSENSE };
    let calls = CALLS.filter(|&call| !open_half(call, curve, a, second(call)));
    calls.map(|call| Case::new(call, curve, a, second(call))).collect()
}

/// The largest element, and the smallest number that is none.
fn around(field: Field) -> [u64; 2] {
    [(1 << field.degree) - 1, 1 << field.degree]
}

/// 106, whatever else is wrong.
fn degrees() -> Vec<Case> {
    let mut cases = vec![];
    for degree in [0, 4, 6, 60, 62, 255] {
        for f3 in [0, u64::MAX] {
            for a in [NEUTRAL, NONSENSE] {
                let curve = CurveValues { degree, f3, f1: 0, f0: 0 };
                cases.extend(every_call(curve, a));
                cases.push(Case::new(CURVE, curve, a, NONSENSE));
            }
        }
    }
    cases
}

/// 107 for each coefficient, before anything of the class.
fn coefficients(field: Field) -> Vec<Case> {
    let mut cases = vec![];
    for n in around(field).into_iter().chain([u64::MAX]) {
        for [f3, f1, f0] in [[n, 0, 0], [0, n, 0], [0, 0, n]] {
            let curve = CurveValues::new(field, f3, f1, f0);
            cases.extend(every_call(curve, NEUTRAL));
            cases.extend(every_call(curve, NONSENSE));
            cases.push(Case::new(CURVE, curve, NONSENSE, NONSENSE));
        }
    }
    cases
}

/// Every call on a class with another number in place i of u, and of v.
fn with_number(curve: CurveValues, class: ClassValues, i: usize, n: u64) -> Vec<Case> {
    let (mut in_u, mut in_v) = (class, class);
    in_u.u[i] = n;
    in_v.v[i] = n;
    [every_call(curve, in_u), every_call(curve, in_v)].concat()
}

/// 104 for a degree above 3, and for a number other than 0 beyond the degree, an element or not.
fn shapes(field: Field) -> Vec<Case> {
    let curve = CurveValues::new(field, 0, 0, 0);
    let mut cases = vec![];
    for degree in [4, 256, 1 << 32, u64::MAX] {
        cases.extend(every_call(curve, ClassValues { degree, ..NEUTRAL }));
        cases.extend(every_call(curve, ClassValues { degree, ..NONSENSE }));
    }
    for degree in 0..3 {
        let class = ClassValues { degree: degree as u64, ..NEUTRAL };
        for i in degree..3 {
            for n in [1, around(field)[1]] {
                cases.extend(with_number(curve, class, i, n));
            }
        }
    }
    cases
}

/// 110 for each coefficient, before 111; the largest element passes. On f = x^7 the class [x^n, 0] is accepted, and
/// with another number in place of a 0 mostly not.
fn numbers(field: Field) -> Vec<Case> {
    let curve = CurveValues::new(field, 0, 0, 0);
    let mut cases = vec![];
    for degree in 1..=3 {
        let class = ClassValues { degree: degree as u64, ..NEUTRAL };
        cases.extend(every_call(curve, class));
        for i in 0..degree {
            for n in [1].into_iter().chain(around(field)) {
                cases.extend(with_number(curve, class, i, n));
            }
        }
    }
    cases
}

/// The class [x + m, m] of the largest element m, on the curve through that point with the largest f3 and f1.
fn largest(field: Field) -> Vec<Case> {
    let m = around(field)[0];
    let f = CurveValues::new(field, m, m, 0).curve().expect("the curve is accepted").f;
    let f0 = f.at(field, m) ^ field.square(m) ^ m;
    every_call(CurveValues::new(field, m, m, f0), ClassValues { degree: 1, u: [m, 0, 0], v: [m, 0, 0] })
}

/// Calls on two classes where one is refused or both are: the first class is done with before the second is begun.
fn two_classes(field: Field) -> Vec<Case> {
    let curve = CurveValues::new(field, 0, 0, 0);
    let accepted = ClassValues { degree: 1, ..NEUTRAL };
    let shape = ClassValues { degree: 4, ..NEUTRAL };
    let beyond = ClassValues { u: [0, 0, 1], ..accepted };
    let number = ClassValues { v: [around(field)[1], 0, 0], ..accepted };
    let no_divisor = ClassValues { u: [1, 0, 0], ..accepted };
    let values = [NEUTRAL, accepted, shape, beyond, number, no_divisor, NONSENSE];
    let mut cases = vec![];
    for call in CALLS_ON_TWO {
        for a in values {
            let seconds = values.into_iter().filter(|&b| !open_half(call, curve, a, b));
            cases.extend(seconds.map(|b| Case::new(call, curve, a, b)));
        }
    }
    cases
}

/// The first two stamps, the last, those after it and the largest number.
fn stamps_around(field: Field) -> [u64; 6] {
    let limit = stamp_limit(field);
    [0, 1, limit - 1, limit, limit + 1, u64::MAX]
}

/// Stamps on a curve, with nothing and with nonsense in the places that the call leaves aside.
fn stamps_on(curve: CurveValues, stamps: &[u64]) -> Vec<Case> {
    stamps.iter().flat_map(|&stamp| [NEUTRAL, NONSENSE].map(|aside| Case::stamp(curve, stamp, aside))).collect()
}

/// Stamps at the edges, on f = x^7, on f = x^7 + 1 and on a curve where stamp 0 is 116. There 2^(d-3) has the candidates of
/// 0, but for bits that no element has, and still is 115. Over GF(2^61) also a stamp of f = x^7 that is 116.
fn stamps(field: Field) -> Vec<Case> {
    let on = |f3, f1, f0| CurveValues::new(field, f3, f1, f0);
    let (without, others) = if field == BENCH { (on(4, 5, 1), vec![2]) } else { (on(0, 1, 1), vec![785]) };
    let mut cases = vec![];
    for curve in [on(0, 0, 0), on(0, 0, 1), without] {
        cases.extend(stamps_on(curve, &stamps_around(field)));
        cases.extend(stamps_on(curve, &others));
    }
    for n in around(field).into_iter().chain([u64::MAX]) {
        for curve in [on(n, 0, 0), on(0, n, 0), on(0, 0, n)] {
            cases.extend(stamps_on(curve, &stamps_around(field)));
        }
    }
    cases
}

/// Stamps with a degree that is none, a coefficient that is too large or none, and a stamp that is too large or none.
fn stamps_of_no_field() -> Vec<Case> {
    let mut cases = vec![];
    for degree in [0, 4, 6, 60, 62, 255] {
        for f3 in [0, u64::MAX] {
            cases.extend(stamps_on(CurveValues { degree, f3, f1: 0, f0: 0 }, &stamps_around(WIDE)));
        }
    }
    cases
}

/// Both calls on the class with numbers that pass and that do not, with nothing and with nonsense in the places that they
/// leave aside.
fn with_every_number(curve: CurveValues, a: ClassValues, factors: &[u64], times: &[u64]) -> Vec<Case> {
    let mut cases = vec![];
    for (call, numbers) in CALLS_WITH_NUMBER.into_iter().zip([factors, times]) {
        for &number in numbers {
            cases.extend([NEUTRAL, NONSENSE].map(|aside| Case::with_number(call, curve, a, number, aside)));
        }
    }
    cases
}

/// The edges of both numbers, and numbers of which a part of the bits would pass: on f = x^7 and on f = x^7 + 1, on the
/// neutral class and on classes of degrees 1 and 3.
fn numbers_beside(field: Field) -> Vec<Case> {
    let factors = [0, 1, 2, 3, MULTIPLE_LIMIT - 1, MULTIPLE_LIMIT, MULTIPLE_LIMIT + 1, 1 << 62, 1 << 63, u64::MAX];
    let times =
        [0, 1, 2, 63, HALVINGS_LIMIT, HALVINGS_LIMIT + 1, 128, 256, 1 << 32, (1 << 32) + 1, 1 << 61, u64::MAX];
    let class = |u: &[u64]| {
        let mut row = [0; 3];
        row[..u.len()].copy_from_slice(u);
        ClassValues { degree: u.len() as u64, u: row, ..NEUTRAL }
    };
    // [x, 0] and [x^3, 0] on f = x^7; [x + 1, 0] and [x^3 + x^2 + 1, 0] on f = x^7 + 1
    let classes = [(0, NEUTRAL), (0, class(&[0])), (0, class(&[0; 3])), (1, class(&[1])), (1, class(&[1, 0, 1]))];
    let on = |(f0, a)| with_every_number(CurveValues::new(field, 0, 0, f0), a, &factors, &times);
    classes.into_iter().flat_map(on).collect()
}

/// Numbers that pass and that do not, with a degree that is none, whatever else is wrong.
fn numbers_of_no_field() -> Vec<Case> {
    let mut cases = vec![];
    for degree in [0, 4, 6, 60, 62, 255] {
        for f3 in [0, u64::MAX] {
            for a in [NEUTRAL, NONSENSE] {
                let curve = CurveValues { degree, f3, f1: 0, f0: 0 };
                cases.extend(with_every_number(curve, a, &[0, MULTIPLE_LIMIT], &[0, HALVINGS_LIMIT + 1]));
            }
        }
    }
    cases
}

/// Numbers that pass and that do not beside what is wrong with the curve's coefficients and with the class.
fn numbers_refused_before(field: Field) -> Vec<Case> {
    let curve = CurveValues::new(field, 0, 0, 0);
    let accepted = ClassValues { degree: 1, ..NEUTRAL };
    let refused = [
        (CurveValues { f3: u64::MAX, ..curve }, accepted),
        (curve, ClassValues { degree: 4, ..NEUTRAL }),
        (curve, ClassValues { u: [0, 0, 1], ..accepted }),
        (curve, ClassValues { v: [u64::MAX, 0, 0], ..accepted }),
        (curve, ClassValues { u: [1, 0, 0], ..accepted }),
        (curve, NONSENSE),
    ];
    let (factors, times) = ([0, MULTIPLE_LIMIT, u64::MAX], [0, HALVINGS_LIMIT + 1, u64::MAX]);
    refused.into_iter().flat_map(|(curve, a)| with_every_number(curve, a, &factors, &times)).collect()
}

/// Every refusal of the class, at its edges, with a number that is too large beside it.
fn numbers_after_class(field: Field) -> Vec<Case> {
    let wrong = [coefficients, shapes, numbers].into_iter().flat_map(|part| part(field));
    let once = wrong.filter(|case| case.call == MEMBERSHIP);
    once.flat_map(|case| {
        CALLS_WITH_NUMBER.map(|call| Case::with_number(call, case.curve, case.a, u64::MAX, NONSENSE))
    })
    .collect()
}

/// The cases of the calls on a class with a number.
fn cases_with_number() -> Vec<Case> {
    let mut cases = numbers_of_no_field();
    for field in [BENCH, WIDE] {
        for part in [numbers_beside, numbers_refused_before, numbers_after_class] {
            cases.extend(part(field));
        }
    }
    cases
}

pub fn cases() -> Vec<Case> {
    let mut cases = degrees();
    cases.extend(stamps_of_no_field());
    for field in [BENCH, WIDE] {
        for part in [coefficients, shapes, numbers, largest, two_classes, stamps] {
            cases.extend(part(field));
        }
    }
    cases.extend(cases_with_number());
    cases
}

#[cfg(test)]
mod tests {
    use super::super::{HALVINGS, MULTIPLE, SUM};
    use super::*;

    fn line(curve: CurveValues, a: ClassValues, b: ClassValues) -> String {
        Case::new(SUM, curve, a, b).line
    }

    /// Refusals written out by hand, at the edges that document 01 names and in its order.
    #[test]
    fn refusals_by_hand() {
        let curve = CurveValues { degree: 5, f3: 31, f1: 0, f0: 0 };
        assert_eq!(line(curve, NEUTRAL, NEUTRAL), "0::\n");
        assert_eq!(line(CurveValues { f3: 32, ..curve }, NONSENSE, NEUTRAL), "refused 107\n");
        assert_eq!(line(CurveValues { degree: 6, f3: 64, ..curve }, NONSENSE, NEUTRAL), "refused 106\n");
        let class = |degree, u, v| ClassValues { degree, u, v };
        assert_eq!(line(curve, class(4, [0; 3], [0; 3]), NONSENSE), "refused 104\n");
        assert_eq!(line(curve, class(0, [0, 0, 32], [0; 3]), NONSENSE), "refused 104\n");
        assert_eq!(line(curve, class(2, [32, 0, 0], [0, 0, 1]), NONSENSE), "refused 104\n");
        assert_eq!(line(curve, class(1, [32, 0, 0], [0; 3]), NONSENSE), "refused 110\n");
        assert_eq!(line(curve, class(1, [0; 3], [31, 0, 0]), NONSENSE), "refused 111\n");
        assert_eq!(line(curve, class(1, [0; 3], [1, 0, 0]), NONSENSE), "refused 104\n");
        assert_eq!(line(curve, class(1, [0; 3], [1, 0, 0]), NEUTRAL), "1:0:1\n");
    }

    /// Stamps written out by hand: 106, 107, 115 and 116 in their order.
    #[test]
    fn stamps_by_hand() {
        let line = |degree, f3, f0, stamp| {
            let lines =
                stamps_on(CurveValues { degree, f3, f1: 0, f0 }, &[stamp]).into_iter().map(|case| case.line);
            let lines: Vec<String> = lines.collect();
            assert_eq!(lines[0], lines[1], "what stands aside does not count");
            lines[0].clone()
        };
        for (degree, limit) in [(5, 4), (61, 1 << 58)] {
            assert_eq!(line(degree, 0, 0, 0), "1:0:0\n");
            assert_eq!(line(degree, 0, 1, 0), "1:1:0\n");
            assert_eq!(line(degree, 0, 6, 0), "1:0:2\n");
            assert_eq!(line(degree, 0, 0, limit), "refused 115\n");
            assert_eq!(line(degree, 0, 1 << degree, limit), "refused 107\n");
            assert_eq!(line(degree + 1, 0, 1 << degree, limit), "refused 106\n");
        }
        assert_eq!(line(5, 12, 0, 1), "refused 116\n");
        assert_eq!(line(61, 0, 0, 785), "refused 116\n");
        assert_eq!(line(5, 0, 0, 3), "1:18:16\n");
    }

    /// Multiples and halvings written out by hand: 106, 107, 104, 110, 111, and 118 or 119 after them. On f = x^7 three
    /// doublings bring [x, 0] back, so that it has order 7, and 2^61 - 1 is 1 modulo 7.
    #[test]
    fn numbers_by_hand() {
        let class = |degree, u0, v0| ClassValues { degree, u: [u0, 0, 0], v: [v0, 0, 0] };
        let line = |call, degree, f0, a, number| {
            let curve = CurveValues { degree, f3: 0, f1: 0, f0 };
            Case::with_number(call, curve, a, number, NONSENSE).line
        };
        for degree in [5, 61] {
            for (n, expected) in [(0, "0::"), (1, "1:0:0"), (2, "2:0,0:0,0"), (7, "0::"), ((1 << 61) - 1, "1:0:0")]
            {
                assert_eq!(line(MULTIPLE, degree, 0, class(1, 0, 0), n), format!("{expected}\n"));
            }
            for (k, expected) in [(0, "1:0:0"), (1, "3:0,0,0:0,0,1"), (3, "1:0:0"), (64, "3:0,0,0:0,0,1")] {
                assert_eq!(line(HALVINGS, degree, 0, class(1, 0, 0), k), format!("{expected}\n"));
            }
            for (call, least, refusal) in [(MULTIPLE, 1 << 61, 118), (HALVINGS, 65, 119)] {
                for number in [least, u64::MAX] {
                    let refused = |degree, f0, a| line(call, degree, f0, a, number);
                    assert_eq!(refused(degree, 0, class(1, 0, 0)), format!("refused {refusal}\n"));
                    assert_eq!(refused(degree, 0, class(1, 1, 0)), "refused 111\n");
                    assert_eq!(refused(degree, 0, class(1, 1, 1 << degree)), "refused 110\n");
                    assert_eq!(refused(degree, 0, class(0, 1, 1 << degree)), "refused 104\n");
                    assert_eq!(refused(degree, 1 << degree, class(0, 1, 0)), "refused 107\n");
                    assert_eq!(refused(degree + 1, 1 << degree, class(0, 1, 0)), "refused 106\n");
                }
            }
        }
    }

    /// The sums of two classes meet each refusal at each of the two places, and both orders of any two.
    #[test]
    fn refusals_of_two_classes() {
        let sums = two_classes(WIDE).into_iter().filter(|case| case.call == SUM);
        let lines: Vec<String> = sums.map(|case| case.line).collect();
        let row = |i: usize| lines[7 * i..7 * i + 7].to_vec();
        let second = ["refused 104\n", "refused 104\n", "refused 110\n", "refused 111\n", "refused 104\n"];
        for i in [0, 1] {
            assert_eq!(row(i)[2..], second);
        }
        for (i, refusal) in second.iter().enumerate() {
            assert_eq!(row(i + 2), [*refusal; 7]);
        }
    }
}
