//! The cases of the program `element_trial`: calls on elements, in the bytes that it reads, and the line that is
//! expected for each.
//!
//! A case is 18 bytes: the call (1 sum, 2 product, 3 square, 4 square root, 5 inverse, 6 root of y^2 + y = a), the
//! degree, and two numbers of eight bytes, high byte first; the calls on one element leave the second number aside.

use crate::field::{inverse, product, quadratic_root, square, square_root, sum, Answer, BENCH, WIDE};
use crate::random::Random;

#[derive(Clone, Copy, Debug, PartialEq, Eq)]
pub struct Case {
    pub call: u8,
    pub degree: u8,
    pub a: u64,
    pub b: u64,
}

/// The calls on two elements, then those on one.
const ON_TWO: [u8; 2] = [SUM, PRODUCT];
const ON_ONE: [u8; 4] = [SQUARE, SQUARE_ROOT, INVERSE, QUADRATIC_ROOT];
const SUM: u8 = 1;
const PRODUCT: u8 = 2;
const SQUARE: u8 = 3;
const SQUARE_ROOT: u8 = 4;
const INVERSE: u8 = 5;
const QUADRATIC_ROOT: u8 = 6;

impl Case {
    pub fn bytes(&self) -> Vec<u8> {
        let head = [self.call, self.degree];
        [&head[..], &self.a.to_be_bytes(), &self.b.to_be_bytes()].concat()
    }

    /// The element in hexadecimal, `no root`, `refused` and the number, or `no such call`; with the line's end.
    pub fn line(&self) -> String {
        let answer = match self.call {
            SUM => sum(self.degree, self.a, self.b),
            PRODUCT => product(self.degree, self.a, self.b),
            SQUARE => square(self.degree, self.a),
            SQUARE_ROOT => square_root(self.degree, self.a),
            INVERSE => inverse(self.degree, self.a),
            QUADRATIC_ROOT => quadratic_root(self.degree, self.a),
            _ => return "no such call\n".to_string(),
        };
        match answer {
            Answer::Element(element) => format!("{:x}\n", element),
            Answer::NoRoot => "no root\n".to_string(),
            Answer::Refused(number) => format!("refused {}\n", number),
        }
    }
}

/// Every call on elements of the bench field.
fn bench_field() -> Vec<Case> {
    let degree = BENCH.degree as u8;
    let mut cases = vec![];
    for call in ON_TWO {
        for a in 0..32 {
            cases.extend((0..32).map(|b| Case { call, degree, a, b }));
        }
    }
    for call in ON_ONE {
        cases.extend((0..32).map(|a| Case { call, degree, a, b: 0 }));
    }
    cases
}

/// Calls on elements drawn from the whole of GF(2^61), 400 of each kind.
fn wide_field() -> Vec<Case> {
    let degree = WIDE.degree as u8;
    let mut random = Random::new(61);
    let mut cases = vec![];
    for call in ON_TWO.into_iter().chain(ON_ONE) {
        for _ in 0..400 {
            let (a, b) = (random.element(WIDE), random.element(WIDE));
            cases.push(Case { call, degree, a, b });
        }
    }
    cases
}

/// Calls whose results are folded, over GF(2^61), on single powers of t: the product with t^60, whose high bit is folded by
/// itself, the square and the square root.
fn single_bits() -> Vec<Case> {
    let degree = WIDE.degree as u8;
    let on = |a| [(PRODUCT, 1 << 60), (SQUARE, 0), (SQUARE_ROOT, 0)].map(|(call, b)| Case { call, degree, a, b });
    (0..WIDE.degree).flat_map(|i| on(1 << i)).collect()
}

/// Every call at the edges of the degree and of the numbers: 0, 1, the largest element and the smallest number
/// that is none, of this degree and of the two fields, and the largest number. A call on one element also with a
/// second number that is no element, which it leaves aside.
fn edges() -> Vec<Case> {
    let mut cases = vec![];
    for degree in [0, 4, 5, 6, 60, 61, 62, 255] {
        let mut numbers = vec![0, 1, u64::MAX];
        for d in [degree, 5, 61] {
            numbers.extend(1u64.checked_shl(d as u32).map_or(vec![], |n| vec![n - 1, n]));
        }
        numbers.sort_unstable();
        numbers.dedup();
        for call in ON_TWO {
            for &a in &numbers {
                cases.extend(numbers.iter().map(|&b| Case { call, degree, a, b }));
            }
        }
        for call in ON_ONE {
            for &a in &numbers {
                cases.extend([0, u64::MAX].map(|b| Case { call, degree, a, b }));
            }
        }
    }
    cases
}

/// Bytes in the call's place that name no call.
fn no_calls() -> Vec<Case> {
    [0, 7, 255].map(|call| Case { call, degree: 5, a: 1, b: 1 }).to_vec()
}

/// All cases, in their stored order.
pub fn all_cases() -> Vec<Case> {
    [bench_field(), wide_field(), single_bits(), edges(), no_calls()].concat()
}

/// What the program is given: all cases, and then one that is cut short.
pub fn input() -> Vec<u8> {
    let mut bytes: Vec<u8> = all_cases().iter().flat_map(Case::bytes).collect();
    bytes.extend([1, 5, 0]);
    bytes
}

/// What is expected for that input.
pub fn output() -> String {
    let mut text: String = all_cases().iter().map(Case::line).collect();
    text.push_str("cut short\n");
    text
}

#[cfg(test)]
mod tests {
    use super::*;

    #[test]
    fn bytes_of_a_case() {
        let case = Case { call: 2, degree: 61, a: 0x0102030405060708, b: 255 };
        assert_eq!(case.bytes(), [2, 61, 1, 2, 3, 4, 5, 6, 7, 8, 0, 0, 0, 0, 0, 0, 0, 255]);
    }

    #[test]
    fn lines_of_each_kind() {
        let line = |call, degree, a, b| Case { call, degree, a, b }.line();
        assert_eq!(line(1, 5, 31, 1), "1e\n");
        assert_eq!(line(2, 5, 16, 2), "5\n");
        assert_eq!(line(3, 5, 3, 0), "5\n");
        assert_eq!(line(4, 5, 5, 0), "3\n");
        assert_eq!(line(5, 61, 1, 99), "1\n");
        assert_eq!(line(5, 61, 0, 1), "refused 117\n");
        assert_eq!(line(5, 6, 0, 1), "refused 106\n");
        assert_eq!(line(1, 4, 0, 99), "refused 106\n");
        assert_eq!(line(1, 5, 0, 99), "refused 110\n");
        assert_eq!(line(6, 5, 6, 99), "2\n");
        assert_eq!(line(6, 5, 1, 99), "no root\n");
        assert_eq!(line(6, 6, 64, 99), "refused 106\n");
        assert_eq!(line(6, 61, 1 << 61, 99), "refused 110\n");
        assert_eq!(line(7, 5, 0, 0), "no such call\n");
    }

    /// Each call meets 106 and 110 and an element, over both fields; a root of y^2 + y = a is also missing, and an inverse
    /// alone is refused with 117, for 0 and for nothing else.
    #[test]
    fn every_outcome_of_every_call() {
        let cases = all_cases();
        for call in 1..=6 {
            let wanted = |degree| cases.iter().filter(move |case| case.call == call && case.degree == degree);
            let lines = |degree| -> Vec<String> { wanted(degree).map(Case::line).collect() };
            for degree in [5, 61] {
                assert!(lines(degree).contains(&"refused 110\n".to_string()));
                let element = if call == QUADRATIC_ROOT { "0\n" } else { "1\n" };
                assert!(lines(degree).contains(&element.to_string()));
                assert_eq!(lines(degree).contains(&"no root\n".to_string()), call == QUADRATIC_ROOT);
                assert!(!lines(degree).contains(&"refused 106\n".to_string()));
                for case in wanted(degree) {
                    assert_eq!(case.line() == "refused 117\n", call == INVERSE && case.a == 0);
                }
                assert_eq!(lines(degree).contains(&"refused 117\n".to_string()), call == INVERSE);
            }
            for degree in [0, 4, 6, 60, 62, 255] {
                assert!(lines(degree).iter().all(|line| line == "refused 106\n"));
            }
        }
    }
}
