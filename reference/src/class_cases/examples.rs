//! Document 01's twelve examples, over both fields, and the doubling of example 7 with its steps; A is f = x^7, B is
//! f = x^7 + 1.

use super::{Case, CurveValues, DOUBLE, DOUBLE_IN_STEPS, MEMBERSHIP, SUM};
use crate::field::{Field, BENCH, WIDE};
use crate::jacobian::Class;

fn over(field: Field) -> Vec<Case> {
    let class = |u: &[u64], v: &[u64]| Class::new(u.to_vec(), v.to_vec());
    let a = CurveValues::new(field, 0, 0, 0);
    let b = CurveValues::new(field, 0, 0, 1);
    // [x, 0], [x, 1], [x^2, 0], [x^3, 0], [x^3, 1]
    let [x, x_one] = [class(&[0, 1], &[]), class(&[0, 1], &[1])];
    let x2 = class(&[0, 0, 1], &[]);
    let [x3, x3_one] = [class(&[0, 0, 0, 1], &[]), class(&[0, 0, 0, 1], &[1])];
    // [x + 1, 0], [x + 1, 1], [x^2 + 1, x + 1], [x^3 + x^2 + 1, 0]
    let [b1, b1_one] = [class(&[1, 1], &[]), class(&[1, 1], &[1])];
    let b2 = class(&[1, 0, 1], &[1, 1]);
    let b3 = class(&[1, 0, 1, 1], &[]);
    // [x^3 + x^2 + x + 1, x], [x^3 + x^2 + x + 1, x + 1]
    let [b4, b4_one] = [class(&[1, 1, 1, 1], &[0, 1]), class(&[1, 1, 1, 1], &[1, 1])];
    vec![
        Case::on(DOUBLE, a, &x),
        Case::on(DOUBLE, a, &x2),
        Case::on(DOUBLE, a, &x3_one),
        Case::half(a, &Class::neutral(), &Class::neutral()),
        Case::half(b, &b2, &b1),
        Case::half(b, &b3, &b2),
        Case::half(b, &b4, &b3),
        Case::on_two(SUM, a, &x, &x_one),
        Case::on_two(SUM, a, &x3, &x3),
        Case::on_two(SUM, b, &b2, &b1_one),
        Case::on_two(SUM, b, &b3, &b4_one),
        Case::on(MEMBERSHIP, a, &x),
        Case::on(MEMBERSHIP, b, &x),
        Case::on(DOUBLE_IN_STEPS, b, &b3),
    ]
}

pub fn cases() -> Vec<Case> {
    [over(BENCH), over(WIDE)].concat()
}

#[cfg(test)]
mod tests {
    use super::*;

    /// The answers that document 01 gives, in its order: example 12 as two calls, and last that example 7's doubling
    /// goes 6, 4, 3.
    #[test]
    fn answers_of_the_document() {
        let answers = [
            "2:0,0:0,0\n",
            "3:0,0,0:0,0,1\n",
            "1:0:0\n",
            "0::\n",
            "1:1:0\n",
            "2:0,1:1,1\n",
            "3:1,0,1:0,0,0\n",
            "0::\n",
            "1:0:1\n",
            "1:1:0\n",
            "3:1,0,1:0,0,1\n",
            "accepted\n",
            "refused 111\n",
            "3:1,1,1:0,1,0 2\n",
        ];
        for field in [BENCH, WIDE] {
            let lines: Vec<String> = over(field).into_iter().map(|case| case.line).collect();
            assert_eq!(lines, answers);
        }
    }
}
