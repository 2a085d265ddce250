//! The cases of the program `conformance`: calls on classes, in the bytes that it reads, and the line that is expected for
//! each.
//!
//! A case is 138 bytes: the call, the degree d, f3, f1 and f0, and two classes; the calls on one class leave the second
//! aside. A class is its degree, u0, u1, u2, v0, v1 and v2. All numbers but d take eight bytes, high byte first. The call
//! on a stamp finds it in the place of the first class's degree, and leaves all else of the classes aside. Those that take
//! a class with a number find the number in the place of the second class's degree, and leave all else of that one aside.
//!
//! - `examples`: document 01's twelve, over both fields.
//! - `edges`: every refusal at its edges and in its order.
//! - `drawn`: classes of every degree over GF(2^61), on curves drawn at random.
//! - `sweep`: every class of a curve over the bench field.
//! - `stamps`: classes of stamps over both fields.
//! - `multiples`: multiples of classes and repeated halves over both fields.

pub mod drawn;
pub mod edges;
pub mod examples;
pub mod multiples;
pub mod stamps;
pub mod sweep;

use crate::field::Field;
use crate::halving::is_half;
use crate::jacobian::{Class, Curve, Reduced};
use crate::multiples::{doublings, halvings, multiple};
use crate::stamp::class_of_stamp;

pub const MEMBERSHIP: u8 = 1;
pub const OPPOSITE: u8 = 2;
pub const DOUBLE: u8 = 3;
pub const HALF: u8 = 4;
pub const SUM: u8 = 5;
pub const HALF_OF_DOUBLE: u8 = 6;
pub const DOUBLE_OF_HALF: u8 = 7;
pub const DOUBLE_IN_STEPS: u8 = 8;
pub const SUM_IN_STEPS: u8 = 9;
pub const DOUBLE_AND_ADD: u8 = 10;
pub const SUBTRACT_AND_HALVE: u8 = 11;
pub const CURVE: u8 = 12;
pub const STAMP: u8 = 13;
pub const MULTIPLE: u8 = 14;
pub const HALVINGS: u8 = 15;
/// The calls on classes alone; of these the calls on two; and those on a class with a number.
pub const CALLS: std::ops::RangeInclusive<u8> = 1..=11;
pub const CALLS_ON_TWO: [u8; 4] = [SUM, SUM_IN_STEPS, DOUBLE_AND_ADD, SUBTRACT_AND_HALVE];
pub const CALLS_WITH_NUMBER: [u8; 2] = [MULTIPLE, HALVINGS];

/// The calls that every class of a curve is taken through, in this order. tests/conformance looks into the lines by it:
/// the fourth of seven is the half, and the sixth the class itself.
pub const SEVEN: [u8; 7] = [MEMBERSHIP, OPPOSITE, DOUBLE, HALF, HALF_OF_DOUBLE, DOUBLE_OF_HALF, SUM];

/// Degree and coefficients as a caller hands them over; they need not be those of a curve.
#[derive(Clone, Copy, Debug, PartialEq, Eq)]
pub struct CurveValues {
    pub degree: u8,
    pub f3: u64,
    pub f1: u64,
    pub f0: u64,
}

/// A class as a caller hands it over, u and v by rising power and u without its leading 1; it need not be one.
#[derive(Clone, Copy, Debug, PartialEq, Eq)]
pub struct ClassValues {
    pub degree: u64,
    pub u: [u64; 3],
    pub v: [u64; 3],
}

pub const NEUTRAL: ClassValues = ClassValues { degree: 0, u: [0; 3], v: [0; 3] };

impl CurveValues {
    pub fn new(field: Field, f3: u64, f1: u64, f0: u64) -> CurveValues {
        CurveValues { degree: field.degree as u8, f3, f1, f0 }
    }

    pub fn bytes(&self) -> Vec<u8> {
        [vec![self.degree], [self.f3, self.f1, self.f0].map(u64::to_be_bytes).concat()].concat()
    }

    /// The curve, or the refusal: 106 for the degree, then 107 for the coefficients.
    pub fn curve(&self) -> Result<Curve, u32> {
        let field = Field::of_degree(self.degree).ok_or(106u32)?;
        if [self.f3, self.f1, self.f0].iter().any(|&c| !field.contains(c)) {
            return Err(107);
        }
        Ok(Curve::new(field, self.f3, self.f1, self.f0))
    }
}

impl From<&Class> for ClassValues {
    fn from(class: &Class) -> ClassValues {
        let degree = class.degree();
        let below = |i: usize| if i < degree { class.u.coefficient(i) } else { 0 };
        ClassValues {
            degree: degree as u64,
            u: [below(0), below(1), below(2)],
            v: [0, 1, 2].map(|i| class.v.coefficient(i)),
        }
    }
}

impl ClassValues {
    pub fn bytes(&self) -> Vec<u8> {
        [vec![self.degree], self.u.to_vec(), self.v.to_vec()]
            .concat()
            .into_iter()
            .flat_map(u64::to_be_bytes)
            .collect()
    }

    /// The class, or the refusal: 104 for a degree above 3 or a number other than 0 beyond the degree, then 110 for a
    /// number that is no element, then 111 where u does not divide v^2 + v + f.
    pub fn class(&self, curve: &Curve) -> Result<Class, u32> {
        if self.degree > 3 {
            return Err(104);
        }
        let degree = self.degree as usize;
        if self.u[degree..].iter().chain(&self.v[degree..]).any(|&c| c != 0) {
            return Err(104);
        }
        if self.u.iter().chain(&self.v).any(|&c| !curve.field.contains(c)) {
            return Err(110);
        }
        let u = [&self.u[..degree], &[1]].concat();
        let class = Class::new(u, self.v.to_vec());
        if curve.is_member(&class) {
            Ok(class)
        } else {
            Err(111)
        }
    }

    /// Degree, u and v with a colon between, the coefficients below x^n from the highest power down.
    pub fn printed(&self, n: usize) -> String {
        let row = |row: [u64; 3]| {
            let numbers: Vec<String> = row[..n].iter().rev().map(|c| format!("{c:x}")).collect();
            numbers.join(",")
        };
        format!("{}:{}:{}", self.degree, row(self.u), row(self.v))
    }
}

/// A case, and the line that is expected for it, with its end.
#[derive(Clone, Debug, PartialEq, Eq)]
pub struct Case {
    pub call: u8,
    pub curve: CurveValues,
    pub a: ClassValues,
    pub b: ClassValues,
    pub line: String,
}

/// A class as the walk report prints it.
pub fn printed(class: &Class) -> String {
    ClassValues::from(class).printed(class.degree())
}

/// A class with the number of reduction steps that led to it.
fn printed_with_steps(reduced: &Reduced) -> String {
    format!("{} {}", printed(&reduced.class), reduced.steps)
}

/// What a call answers, a refusal as its number. A half and a double that follow each other give the class back. Any
/// other half is answered of the neutral class only: its cases are made from their answer, by `Case::half` and
/// `Case::halved_difference`.
fn answer(call: u8, curve: CurveValues, a: ClassValues, b: ClassValues) -> Result<String, u32> {
    let curve = curve.curve()?;
    if call == CURVE {
        return Ok("accepted".to_string());
    }
    if call == STAMP {
        return class_of_stamp(&curve, a.degree).map(|class| printed(&class));
    }
    let (a, number) = (a.class(&curve)?, b.degree);
    let b = if CALLS_ON_TWO.contains(&call) { b.class(&curve)? } else { Class::neutral() };
    match call {
        MEMBERSHIP => Ok("accepted".to_string()),
        OPPOSITE => Ok(printed(&curve.opposite(&a))),
        DOUBLE => Ok(printed(&curve.double(&a))),
        SUM => Ok(printed(&curve.sum(&a, &b))),
        HALF_OF_DOUBLE | DOUBLE_OF_HALF => Ok(printed(&a)),
        DOUBLE_IN_STEPS => Ok(printed_with_steps(&curve.double_in_steps(&a))),
        SUM_IN_STEPS => Ok(printed_with_steps(&curve.sum_in_steps(&a, &b))),
        DOUBLE_AND_ADD => Ok(printed(&curve.sum(&curve.double(&a), &b))),
        MULTIPLE => multiple(&curve, number, &a).map(|class| printed(&class)),
        HALVINGS => halvings(&curve, number, &a).map(|class| printed(&class)),
        HALF | SUBTRACT_AND_HALVE if a == b && b == Class::neutral() => Ok(printed(&a)),
        _ => panic!("no answer to call {call} on {a:?} and {b:?}"),
    }
}

impl Case {
    pub fn new(call: u8, curve: CurveValues, a: ClassValues, b: ClassValues) -> Case {
        let line = match answer(call, curve, a, b) {
            Ok(answer) => format!("{answer}\n"),
            Err(number) => format!("refused {number}\n"),
        };
        Case { call, curve, a, b, line }
    }

    /// A call on one class.
    pub fn on(call: u8, curve: CurveValues, a: &Class) -> Case {
        Case::new(call, curve, a.into(), NEUTRAL)
    }

    /// A call on two classes.
    pub fn on_two(call: u8, curve: CurveValues, a: &Class, b: &Class) -> Case {
        Case::new(call, curve, a.into(), b.into())
    }

    /// The class of a stamp; what is left aside is taken from the values given.
    pub fn stamp(curve: CurveValues, stamp: u64, aside: ClassValues) -> Case {
        Case::new(STAMP, curve, ClassValues { degree: stamp, ..aside }, aside)
    }

    /// n times a class.
    pub fn multiple(curve: CurveValues, class: &Class, n: u64) -> Case {
        Case::with_number(MULTIPLE, curve, class.into(), n, NEUTRAL)
    }

    /// A class halved k times.
    pub fn halvings(curve: CurveValues, class: &Class, k: u64) -> Case {
        Case::with_number(HALVINGS, curve, class.into(), k, NEUTRAL)
    }

    /// A call on a class with a number; what is left aside is taken from the values given.
    pub fn with_number(call: u8, curve: CurveValues, a: ClassValues, number: u64, aside: ClassValues) -> Case {
        Case::new(call, curve, a, ClassValues { degree: number, ..aside })
    }

    /// The same with an answer that is known already.
    pub fn known(call: u8, curve: CurveValues, class: &Class, number: u64, expected: &Class) -> Case {
        let line = format!("{}\n", printed(expected));
        Case { call, curve, a: class.into(), b: ClassValues { degree: number, ..NEUTRAL }, line }
    }

    /// The class that halved k times is the one given, made from that answer.
    pub fn halved_doublings(curve: CurveValues, class: &Class, k: u64) -> Case {
        let doubled = doublings(&curve.curve().expect("the curve is accepted"), k, class);
        Case::known(HALVINGS, curve, &doubled, k, class)
    }

    /// The half of a class, with the answer given, which is held to the definition.
    pub fn half(curve: CurveValues, class: &Class, half: &Class) -> Case {
        assert!(is_half(&curve.curve().expect("the curve is accepted"), half, class));
        let line = format!("{}\n", printed(half));
        Case { call: HALF, curve, a: class.into(), b: NEUTRAL, line }
    }

    /// The class from which the second is subtracted and the half taken, made from the second and the answer.
    pub fn halved_difference(curve: CurveValues, half: &Class, second: &Class) -> Case {
        let on = curve.curve().expect("the curve is accepted");
        let first = on.sum(&on.double(half), second);
        assert!(is_half(&on, half, &on.difference(&first, second)));
        let line = format!("{}\n", printed(half));
        Case { call: SUBTRACT_AND_HALVE, curve, a: (&first).into(), b: second.into(), line }
    }

    /// The seven calls on a class: its half is given, and the sum is with a second class.
    pub fn seven(curve: CurveValues, class: &Class, half: &Class, second: &Class) -> [Case; 7] {
        SEVEN.map(|call| match call {
            HALF => Case::half(curve, class, half),
            SUM => Case::on_two(SUM, curve, class, second),
            _ => Case::on(call, curve, class),
        })
    }

    pub fn bytes(&self) -> Vec<u8> {
        [vec![self.call], self.curve.bytes(), self.a.bytes(), self.b.bytes()].concat()
    }
}

/// Bytes in the call's place that name no call.
fn no_calls() -> Vec<Case> {
    let curve = CurveValues { degree: 5, f3: 0, f1: 0, f0: 0 };
    let line = "no such call\n".to_string();
    [0, 16, 255].map(|call| Case { call, curve, a: NEUTRAL, b: NEUTRAL, line: line.clone() }).to_vec()
}

/// The stored cases, in their order.
pub fn stored_cases() -> Vec<Case> {
    [examples::cases(), edges::cases(), drawn::cases(), no_calls()].concat()
}

/// What the program is given, the stored cases and then one that is cut short, and what is expected for that.
pub fn stored() -> (Vec<u8>, String) {
    let cases = stored_cases();
    let mut input: Vec<u8> = cases.iter().flat_map(Case::bytes).collect();
    input.extend([1, 5, 0]);
    let mut output: String = cases.into_iter().map(|case| case.line).collect();
    output.push_str("cut short\n");
    (input, output)
}

#[cfg(test)]
mod tests {
    use super::*;

    #[test]
    fn bytes_of_a_case() {
        let curve = CurveValues { degree: 61, f3: 0x0102030405060708, f1: 2, f0: 3 };
        let a = ClassValues { degree: 4, u: [5, 6, 7], v: [8, 9, 10] };
        let b = ClassValues { degree: 11, u: [12, 13, 14], v: [15, 16, 17] };
        let bytes = Case { call: 5, curve, a, b, line: String::new() }.bytes();
        assert_eq!(bytes.len(), 138);
        assert_eq!(bytes[..10], [5, 61, 1, 2, 3, 4, 5, 6, 7, 8]);
        for (i, number) in (2..18).enumerate() {
            assert_eq!(bytes[10 + 8 * i..18 + 8 * i], [0, 0, 0, 0, 0, 0, 0, number]);
        }
    }

    /// Lines of document 01's walk report.
    #[test]
    fn printed_classes() {
        assert_eq!(printed(&Class::neutral()), "0::");
        assert_eq!(printed(&Class::new(vec![0, 0, 1], vec![1])), "2:0,0:0,1");
        assert_eq!(printed(&Class::new(vec![31, 0, 10, 1], vec![1, 2, 16])), "3:a,0,1f:10,2,1");
    }

    #[test]
    fn values_of_a_class() {
        let class = Class::new(vec![3, 0, 1], vec![0, 7]);
        assert_eq!(ClassValues::from(&class), ClassValues { degree: 2, u: [3, 0, 0], v: [0, 7, 0] });
        assert_eq!(ClassValues::from(&Class::neutral()), NEUTRAL);
    }

    /// Every call on classes meets every refusal and an answer, over both fields, and those with a number its own besides;
    /// that on the curve those of the curve, and that on a stamp those and its own two.
    #[test]
    fn every_outcome_of_every_call() {
        let cases = stored_cases();
        for call in CALLS.chain([CURVE, STAMP]).chain(CALLS_WITH_NUMBER) {
            for degree in [5, 61] {
                let wanted = |case: &&Case| case.call == call && case.curve.degree == degree;
                let lines: Vec<&str> = cases.iter().filter(wanted).map(|case| case.line.as_str()).collect();
                for number in [104, 106, 107, 110, 111, 115, 116, 118, 119] {
                    let due = match call {
                        CURVE => number == 107,
                        STAMP => [107, 115, 116].contains(&number),
                        MULTIPLE => [104, 107, 110, 111, 118].contains(&number),
                        HALVINGS => [104, 107, 110, 111, 119].contains(&number),
                        _ => [104, 107, 110, 111].contains(&number),
                    };
                    assert_eq!(
                        lines.contains(&format!("refused {number}\n").as_str()),
                        due,
                        "{call} {degree} {number}"
                    );
                }
                assert!(lines.iter().filter(|line| !line.starts_with("refused")).count() > 1);
            }
            let others = cases.iter().filter(|case| case.call == call && ![5, 61].contains(&case.curve.degree));
            let lines: Vec<String> = others.map(|case| case.line.clone()).collect();
            assert!(!lines.is_empty() && lines.iter().all(|line| line == "refused 106\n"));
        }
    }
}
