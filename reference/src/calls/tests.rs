//! The byte calls: document 01's examples, every refusal at its edges, the order of the checks; releases; stamps;
//! multiples and halvings.

use super::*;
use crate::field::{Field, BENCH, WIDE};
use crate::stored::{
    count_field, curve_field, curve_fields, degree_field, field, operation_field, released_field, CLASS, OPERATION,
};

const CLASS_CALLS: [Call; 7] =
    [Call::Opposite, Call::Sum, Call::Double, Call::Half, Call::Stamp(0), Call::Multiple(0), Call::Halvings(0)];

fn curve_a(field: Field) -> Curve {
    Curve::new(field, 0, 0, 0)
}

/// [x, 0], which is on f = x^7.
fn x() -> Class {
    Class::new(vec![0, 1], vec![])
}

/// The calls on registers.
const REGISTER_CALLS: [Call; 3] = [Call::Commit, Call::Undo, Call::Release];

/// The fields of an accepted record: every class is [x, 0] on f = x^7, the count 7, the released step 3.
fn fields(call: Call, field: Field) -> Vec<Vec<u8>> {
    let coefficients = curve_field(0, 0, 0);
    let mut fields = vec![degree_field(field.degree as u8), coefficients];
    if call.is_of_register() {
        fields.extend([count_field(7), released_field(3)]);
    }
    if !matches!(call, Call::Stamp(_)) {
        fields.push(class_field(&x()));
    }
    match call {
        Call::Sum => fields.push(class_field(&x())),
        Call::Commit | Call::Undo => fields.push(operation_field(&x())),
        _ => {}
    }
    fields
}

fn record(call: Call, field: Field) -> Vec<u8> {
    fields(call, field).concat()
}

/// A record of a call on a register, with the operation that a release does not have.
fn register(call: Call, count: u16, released: u16, seal: &Class, operation: &Class) -> Vec<u8> {
    let last = if call.takes_operation() { operation_field(operation) } else { vec![] };
    let [degree, curve] = curve_fields(&curve_a(BENCH));
    [degree, curve, register_fields(count, released, seal).concat(), last].concat()
}

/// The answer with an output that is long enough; a refusal changes no byte.
fn answered(call: Call, input: &[u8]) -> u32 {
    let output: Vec<u8> = (0..80).collect();
    let (answer, after) = run(call, input, &output);
    assert_eq!(after.len(), 80);
    let written = if answer > 100 { 0 } else { answer as usize };
    assert_eq!(after[written..], output[written..]);
    answer
}

/// Document 01's twelve examples, over both fields.
#[test]
fn twelve_examples() {
    let class = |u: &[u64], v: &[u64]| Class::new([u, &[1]].concat(), v.to_vec());
    let (one, x, x_one) = (Class::neutral(), class(&[0], &[]), class(&[0], &[1]));
    let (x2, x3, x3_one) = (class(&[0, 0], &[]), class(&[0, 0, 0], &[]), class(&[0, 0, 0], &[1]));
    let (b1, b1_one, b2) = (class(&[1], &[]), class(&[1], &[1]), class(&[1, 0], &[1, 1]));
    let (b3, b3_one) = (class(&[1, 0, 1], &[]), class(&[1, 0, 1], &[1]));
    let (b4, b4_opposite) = (class(&[1, 1, 1], &[0, 1]), class(&[1, 1, 1], &[1, 1]));
    for field in [BENCH, WIDE] {
        let (a, b) = (curve_a(field), Curve::new(field, 0, 0, 1));
        let answer = |call, curve: &Curve, classes: &[&Class]| {
            let classes: Vec<u8> = classes.iter().flat_map(|class| class_field(class)).collect();
            run(call, &[curve_fields(curve).concat(), classes].concat(), &[9; 60])
        };
        let expected = |class: &Class| {
            let mut output = class_field(class);
            let length = output.len() as u32;
            output.resize(60, 9);
            (length, output)
        };
        assert_eq!(answer(Call::Double, &a, &[&x]), expected(&x2), "1");
        assert_eq!(answer(Call::Double, &a, &[&x2]), expected(&x3_one), "2");
        assert_eq!(answer(Call::Double, &a, &[&x3_one]), expected(&x), "3");
        assert_eq!(answer(Call::Half, &a, &[&one]), expected(&one), "4");
        assert_eq!(answer(Call::Half, &b, &[&b2]), expected(&b1), "5");
        assert_eq!(answer(Call::Half, &b, &[&b3]), expected(&b2), "6");
        assert_eq!(answer(Call::Half, &b, &[&b4]), expected(&b3), "7");
        assert_eq!(answer(Call::Sum, &a, &[&x, &x_one]), expected(&one), "8");
        assert_eq!(answer(Call::Sum, &a, &[&x3, &x3]), expected(&x_one), "9");
        assert_eq!(answer(Call::Sum, &b, &[&b2, &b1_one]), expected(&b1), "10");
        assert_eq!(answer(Call::Sum, &b, &[&b3, &b4_opposite]), expected(&b3_one), "11");
        assert_eq!(answer(Call::Membership, &a, &[&x]), (0, vec![9; 60]), "12");
        assert_eq!(answer(Call::Membership, &b, &[&x]), (111, vec![9; 60]), "12");
        assert_eq!(answer(Call::Opposite, &a, &[&x]), expected(&x_one));
        assert_eq!(answer(Call::Opposite, &a, &[&one]), expected(&one), "not [1, 1]");
    }
}

/// 101 at its edges, and before any byte of the input is looked at.
#[test]
fn output_bounds() {
    for (calls, bound) in [(&CLASS_CALLS[..], 51), (&REGISTER_CALLS[..], 61)] {
        for &call in calls {
            let input = record(call, BENCH);
            for length in 0..bound {
                assert_eq!(run(call, &input, &vec![1; length]), (101, vec![1; length]));
                assert_eq!(answer(call, &[], length).0, 101);
            }
            assert!(answer(call, &input, bound).0 <= 100);
            assert_eq!(answer(call, &[], bound).0, 102);
        }
    }
    assert_eq!(run(Call::Membership, &record(Call::Membership, BENCH), &[]), (0, vec![]));
    assert_eq!(run(Call::Membership, &[], &[]), (102, vec![]));
}

/// Each field cut, with a wrong tag, a wrong length, and followed by nonsense that comes later in the order.
#[test]
fn heads_of_every_field() {
    for call in CALLS {
        let fields = fields(call, WIDE);
        for (i, part) in fields.iter().enumerate() {
            let before = fields[..i].concat();
            let with = |part: &[u8]| answered(call, &[&before, part, &[0xff; 9][..]].concat());
            let alone = |part: &[u8]| answered(call, &[&before, part].concat());
            for length in 0..3 {
                assert_eq!(alone(&part[..length]), 102);
                assert_eq!(alone(&vec![0; length]), 102);
            }
            for tag in (0..=255).filter(|&tag| tag != part[0]) {
                assert_eq!(with(&[tag, 0xff, 0xff]), 103);
            }
            for length in 0..=300u16 {
                let allowed: &[u16] = match part[0] {
                    0x40 => &[1],
                    0x41 => &[24],
                    0x42 | 0x45 => &[2],
                    _ => &[0, 16, 32, 48],
                };
                let [high, low] = length.to_be_bytes();
                if !allowed.contains(&length) {
                    assert_eq!(alone(&[part[0], high, low]), 104);
                } else if length > 0 {
                    for body in 0..length as usize {
                        assert_eq!(alone(&[&[part[0], high, low], &vec![0xff; body][..]].concat()), 105);
                    }
                }
            }
        }
        let whole = fields.concat();
        for rest in [&[0][..], &[0x43], &[0xff; 3], &[0; 100], &whole] {
            assert_eq!(answered(call, &[&whole, rest].concat()), 112);
        }
    }
}

/// 106, 107, 109, 110, 111 and 120 in every field that can have them, the next field being cut after a byte.
#[test]
fn bodies_of_every_field() {
    for call in CALLS {
        for d in [BENCH, WIDE] {
            let least = 1u64 << d.degree;
            let fields = fields(call, d);
            for (i, part) in fields.iter().enumerate() {
                let with = |part: Vec<u8>| answered(call, &[fields[..i].concat(), part].concat());
                let numbers = |numbers: &[u64]| {
                    let body: Vec<u8> = numbers.iter().flat_map(|n| n.to_be_bytes()).collect();
                    with(field(part[0], &body))
                };
                match part[0] {
                    0x40 => {
                        for degree in (0..=255).filter(|degree| ![5, 61].contains(degree)) {
                            assert_eq!(with(degree_field(degree)), 106);
                        }
                    }
                    0x41 => {
                        for place in 0..3 {
                            let mut row = [0; 3];
                            row[place] = least;
                            assert_eq!(numbers(&row), 107);
                            row[place] = least - 1;
                            let passed = [fields[..i].concat(), curve_field(row[0], row[1], row[2]), vec![0]];
                            let next = if i + 1 < fields.len() { 102 } else { 112 };
                            assert_eq!(answered(call, &passed.concat()), next);
                        }
                    }
                    0x42 => {
                        assert_eq!(with(count_field(1025)), 109);
                        assert_eq!(with(count_field(1024)), 102);
                    }
                    0x45 => {
                        for released in [8, 9, 1024, 1025, 65535] {
                            assert_eq!(with(released_field(released)), 120);
                        }
                        for released in 0..=7 {
                            assert_eq!(with(released_field(released)), 102);
                        }
                    }
                    CLASS | OPERATION => {
                        for degree in 1..=3 {
                            for place in 0..2 * degree {
                                let mut row = vec![1; 2 * degree];
                                row[place] = least;
                                assert_eq!(numbers(&row), 110, "before 111");
                                row[place] = least - 1;
                                assert_ne!(numbers(&row), 110);
                            }
                        }
                        assert_eq!(numbers(&[1, 0]), 111);
                    }
                    tag => panic!("{tag}"),
                }
            }
        }
    }
}

/// The output of a call on a register that is long enough, held to what an accepted one writes.
fn writes(call: Call, input: &[u8], count: u16, released: u16, seal: &Class) {
    let expected = register_fields(count, released, seal).concat();
    let after = [&expected[..], &vec![9; 61 - expected.len()]].concat();
    assert_eq!(run(call, input, &[9; 61]), (expected.len() as u32, after));
}

/// Document 01's edges of the count; the released step is 0 and stays.
#[test]
fn counts() {
    let (x, neutral) = (x(), Class::neutral());
    let double = curve_a(BENCH).double(&x);
    let commit = |count| register(Call::Commit, count, 0, &x, &neutral);
    let undo = |count| register(Call::Undo, count, 0, &double, &neutral);
    writes(Call::Commit, &commit(0), 1, 0, &double);
    writes(Call::Commit, &commit(1023), 1024, 0, &double);
    assert_eq!(answered(Call::Commit, &commit(1024)), 114);
    assert_eq!(answered(Call::Commit, &commit(1025)), 109);
    writes(Call::Undo, &undo(1024), 1023, 0, &x);
    writes(Call::Undo, &undo(1), 0, 0, &x);
    assert_eq!(answered(Call::Undo, &undo(0)), 113);
    assert_eq!(answered(Call::Undo, &undo(1025)), 109);
    // 113 and 114 come last
    assert_eq!(answered(Call::Undo, &[undo(0), vec![0]].concat()), 112);
    assert_eq!(answered(Call::Commit, &[commit(1024), vec![0]].concat()), 112);
    let off_curve = Class::new(vec![1, 1], vec![]);
    assert_eq!(answered(Call::Undo, &register(Call::Undo, 0, 0, &x, &off_curve)), 111);
    assert_eq!(answered(Call::Commit, &register(Call::Commit, 1024, 0, &off_curve, &x)), 111);
}

/// Document 02's edges of the released step: a release sets it to the count, at any count and again; commit and undo
/// keep it; 121 at it, 113 at count 0; 120 above the count, before the seal and after 109.
#[test]
fn released_steps() {
    let (x, neutral) = (x(), Class::neutral());
    let double = curve_a(BENCH).double(&x);
    let off_curve = Class::new(vec![1, 1], vec![]);
    for count in [0u16, 1, 2, 512, 1023, 1024] {
        for released in [0, count / 2, count.saturating_sub(1), count] {
            let record = |call, seal, operation| register(call, count, released, seal, operation);
            let release = record(Call::Release, &x, &neutral);
            writes(Call::Release, &release, count, count, &x);
            writes(Call::Release, &register(Call::Release, count, count, &x, &neutral), count, count, &x);
            assert_eq!(answered(Call::Release, &[&release[..], &[0x44, 0, 0]].concat()), 112, "no operation");
            assert_eq!(answered(Call::Release, &record(Call::Release, &off_curve, &neutral)), 111);
            if count < 1024 {
                writes(Call::Commit, &record(Call::Commit, &x, &neutral), count + 1, released, &double);
            }
            let undo = record(Call::Undo, &double, &neutral);
            match (count, released) {
                (0, _) => assert_eq!(answered(Call::Undo, &undo), 113),
                _ if count == released => {
                    assert_eq!(answered(Call::Undo, &undo), 121);
                    assert_eq!(answered(Call::Undo, &[&undo[..], &[0]].concat()), 112);
                    assert_eq!(answered(Call::Undo, &record(Call::Undo, &double, &off_curve)), 111);
                }
                _ => writes(Call::Undo, &undo, count - 1, released, &x),
            }
        }
        for call in REGISTER_CALLS {
            for released in [count + 1, count + 2, 1025, 65535] {
                assert_eq!(answered(call, &register(call, count, released, &x, &x)), 120);
                assert_eq!(answered(call, &register(call, count, released, &off_curve, &off_curve)), 120);
                assert_eq!(answered(call, &register(call, 1025, released, &x, &x)), 109);
            }
        }
    }
    // without 0x45, and with it after the seal
    for call in REGISTER_CALLS {
        let fields = fields(call, BENCH);
        let without = [&fields[..3], &fields[4..]].concat();
        assert_eq!(answered(call, &without.concat()), 103);
        let mut behind = fields.clone();
        behind.swap(3, 4);
        assert_eq!(answered(call, &behind.concat()), 103);
    }
}

/// The class of a stamp is written in 19 bytes. 115 and 116 come after all that is wrong with the input, 115 first.
#[test]
fn stamps() {
    let input = |curve: &Curve| curve_fields(curve).concat();
    let expected = |x: u64, y: u64| {
        let body = [x.to_be_bytes(), y.to_be_bytes()].concat();
        [vec![0x43, 0, 16], body, vec![9; 41]].concat()
    };
    for (field, limit) in [(BENCH, 4), (WIDE, 1 << 58)] {
        let a = curve_a(field);
        assert_eq!(run(Call::Stamp(0), &input(&a), &[9; 60]), (19, expected(0, 0)));
        assert_eq!(run(Call::Stamp(0), &input(&Curve::new(field, 0, 0, 6)), &[9; 60]), (19, expected(0, 2)));
        assert_eq!(answered(Call::Stamp(limit - 1), &input(&a)), 19);
        let without = if field == BENCH { Curve::new(field, 4, 5, 1) } else { Curve::new(field, 0, 1, 1) };
        assert_eq!(answered(Call::Stamp(0), &input(&without)), 116);
        for stamp in [limit, limit + 1, 1 << 61, u64::MAX] {
            for curve in [&a, &without] {
                assert_eq!(answered(Call::Stamp(stamp), &input(curve)), 115);
                assert_eq!(answered(Call::Stamp(stamp), &[input(curve), vec![0]].concat()), 112);
            }
            let coefficient = [degree_field(field.degree as u8), curve_field(0, 0, 1 << field.degree)].concat();
            assert_eq!(answered(Call::Stamp(stamp), &coefficient), 107);
            assert_eq!(answer(Call::Stamp(stamp), &input(&a), 50), (101, vec![]));
        }
        assert_eq!(answered(Call::Stamp(0), &[input(&without), vec![0]].concat()), 112);
    }
}

/// A multiple and a halving at their limits, on f = x^7, where three doublings bring [x, 0] back. 118 and 119 come after
/// all that is wrong with the input.
#[test]
fn multiples_and_halvings() {
    let written = |class: &Class| (class_field(class).len() as u32, class_field(class));
    let (xx, xxx_one) = (Class::new(vec![0, 0, 1], vec![]), Class::new(vec![0, 0, 0, 1], vec![1]));
    for field in [BENCH, WIDE] {
        let input = record(Call::Double, field);
        let expected =
            [(0, Class::neutral()), (1, x()), (2, xx.clone()), (4, xxx_one.clone()), ((1 << 61) - 1, x())];
        for (n, class) in expected {
            assert_eq!(answer(Call::Multiple(n), &input, 51), written(&class), "{n}");
        }
        for (k, class) in [(0, &x()), (1, &xxx_one), (2, &xx), (3, &x()), (64, &xxx_one)] {
            assert_eq!(answer(Call::Halvings(k), &input, 51), written(class), "{k}");
        }
        let too_large = [1 << 61, (1 << 61) + 1, 1 << 63, u64::MAX].map(|n| (Call::Multiple(n), 118));
        let too_often = [65, 1 << 32, 1 << 61, u64::MAX].map(|k| (Call::Halvings(k), 119));
        for (call, refusal) in too_large.into_iter().chain(too_often) {
            assert_eq!(answered(call, &input), refusal);
            assert_eq!(answered(call, &[&input[..], &[0]].concat()), 112);
            let off_curve = class_field(&Class::new(vec![1, 1], vec![]));
            assert_eq!(answered(call, &[curve_fields(&curve_a(field)).concat(), off_curve].concat()), 111);
            assert_eq!(answer(call, &input, 50), (101, vec![]));
        }
    }
}

/// An undo takes back a commit, as far as the last release; the longest output has 61 bytes, that of a class 51.
#[test]
fn commit_and_undo() {
    for field in [BENCH, WIDE] {
        let curve = Curve::new(field, 5, 19, 0);
        let point = (0..32).find_map(|a| curve.point(a)).expect("the curve has a point");
        let mut seal = Class::neutral();
        let mut longest = 0;
        for count in 0..20 {
            let released = count / 2;
            let record = |count, seal: &Class| {
                let [degree, curve] = curve_fields(&curve);
                [degree, curve, register_fields(count, released, seal).concat(), operation_field(&point)].concat()
            };
            let (length, after) = answer(Call::Commit, &record(count, &seal), 61);
            longest = longest.max(length);
            assert!(after.starts_with(&[count_field(count + 1), released_field(released)].concat()));
            let next = Reader::new(&after[10..]).class(&curve).expect("the new seal is a class");
            let back = register_fields(count, released, &seal).concat();
            assert_eq!(answer(Call::Undo, &record(count + 1, &next), 61), (back.len() as u32, back));
            seal = next;
        }
        assert_eq!((seal.degree(), longest), (3, 61));
    }
}
