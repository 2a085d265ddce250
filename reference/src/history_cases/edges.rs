//! Calls whose answers are known by hand or are refusals: document 01's walk, each refusal at its edges and in its order
//! (the curve's, 109, 120, the seal's, the class's, then 114, or 113 and 121), releases, and registers that fail a
//! check.

use super::{RegisterValues, Trial, COMMIT, LIMIT, RELEASE, UNDO};
use crate::class_cases::edges::NONSENSE;
use crate::class_cases::{ClassValues, CurveValues, NEUTRAL};
use crate::field::{Field, BENCH, WIDE};
use crate::jacobian::Class;

/// [x, 0] and [x, 1], classes of f = x^7.
pub const X: ClassValues = ClassValues { degree: 1, u: [0; 3], v: [0; 3] };
pub const X_ONE: ClassValues = ClassValues { degree: 1, u: [0; 3], v: [1, 0, 0] };

/// The register on f = x^7, of which nothing is released.
fn on_a(field: Field, count: u64, seal: ClassValues) -> RegisterValues {
    RegisterValues { curve: CurveValues::new(field, 0, 0, 0), count, seal, released: 0 }
}

/// Values in a class's place and on f = x^7 none: 104 twice, 110 twice, 111.
pub fn no_classes(field: Field) -> [ClassValues; 5] {
    [
        ClassValues { degree: 4, ..X },
        ClassValues { u: [0, 0, 1], ..X },
        ClassValues { u: [1 << field.degree, 0, 0], ..X },
        ClassValues { v: [u64::MAX, 0, 0], ..X },
        ClassValues { u: [1, 0, 0], ..X },
    ]
}

/// Document 01's walk report: from [x^2, 1] by [x, 1] and [x, 0] to [x^3, 0] and [x, 0]; then 113, and forward again.
fn document_walk(trial: &mut Trial, field: Field) {
    trial.start(on_a(field, 2, ClassValues { degree: 2, ..X_ONE }));
    let cube = Class::new(vec![0, 0, 0, 1], vec![]);
    trial.undo(X_ONE, |_| cube);
    trial.undo(X, |_| Class::new(vec![0, 1], vec![]));
    trial.refused(UNDO, X);
    trial.take_all_back();
}

/// 113 at count 0 alone and 114 at 1,024 alone, each after the class's own refusal; 109 from 1,025 on.
fn counts(trial: &mut Trial, field: Field) {
    // [x, 0] is the half of [x^2, 0]
    let (x, square) = (Class::new(vec![0, 1], vec![]), ClassValues { degree: 2, ..X });
    for count in [0, 1, LIMIT - 1, LIMIT] {
        for call in [COMMIT, UNDO] {
            trial.start(on_a(field, count, square));
            for class in no_classes(field) {
                trial.refused(call, class);
            }
            match call {
                COMMIT => trial.commit(NEUTRAL),
                _ => trial.undo(NEUTRAL, |_| x.clone()),
            }
            trial.take_all_back();
        }
    }
    for count in [LIMIT + 1, 1 << 16, 1 << 32, u64::MAX] {
        failing(trial, RegisterValues { released: count, ..on_a(field, count, square) });
    }
    failing(trial, RegisterValues { released: u64::MAX, ..on_a(field, LIMIT + 1, NONSENSE) });
}

/// Released steps beside a count at their edges.
fn edge_released(count: u64) -> Vec<u64> {
    let mut released = vec![0, count.saturating_sub(1), count];
    released.dedup();
    released
}

/// A release at each edge of the count and of the released step before it, and a second one. Behind it no undo goes,
/// 121, at count 0 113, each after the class's own refusal; a commit after it is taken back, and no more. Commit and
/// undo keep the released step.
fn releases(trial: &mut Trial, field: Field) {
    let (x, square) = (Class::new(vec![0, 1], vec![]), ClassValues { degree: 2, ..X });
    for count in [0, 1, 7, LIMIT] {
        for released in edge_released(count) {
            let register = RegisterValues { released, ..on_a(field, count, square) };
            trial.start(register);
            if register.is_undo_barred() {
                for class in no_classes(field) {
                    trial.refused(UNDO, class);
                }
                trial.refused(UNDO, NEUTRAL);
            } else {
                trial.undo(NEUTRAL, |_| x.clone());
                trial.take_back();
            }
            for _ in 0..2 {
                trial.release();
                trial.refused(UNDO, NEUTRAL);
            }
            trial.commit(X);
            trial.take_all_back();
            trial.refused(UNDO, X);
        }
    }
    trial.start(on_a(field, 5, NEUTRAL));
    trial.release();
    trial.commit(NEUTRAL);
    trial.take_all_back();
}

/// 120 from one above the count on, before the seal and the class are looked at.
fn released_above(trial: &mut Trial, field: Field) {
    for count in [0, 7, LIMIT] {
        for released in [count + 1, (1 << 32) + count, u64::MAX] {
            failing(trial, RegisterValues { released, ..on_a(field, count, X) });
        }
        failing(trial, RegisterValues { released: count + 1, ..on_a(field, count, NONSENSE) });
    }
}

/// A register that fails a check: every call refuses it, whatever the class, and it stays as it was.
fn failing(trial: &mut Trial, register: RegisterValues) {
    trial.start(register);
    for class in [NEUTRAL, X, NONSENSE] {
        for call in [COMMIT, UNDO, RELEASE] {
            trial.refused(call, class);
        }
    }
    trial.take_all_back();
}

/// Registers that fail by the curve, before the counts and the seal, or by the seal.
fn registers(trial: &mut Trial, field: Field) {
    let a = on_a(field, 1, X);
    let failing_curves = [
        CurveValues { degree: 0, ..a.curve },
        CurveValues { degree: field.degree as u8 + 1, f3: u64::MAX, ..a.curve },
        CurveValues { f3: 1 << field.degree, ..a.curve },
        CurveValues { f1: u64::MAX, ..a.curve },
        CurveValues { f0: 1 << 63, ..a.curve },
    ];
    for curve in failing_curves {
        failing(trial, RegisterValues { curve, ..a });
        failing(trial, RegisterValues { curve, count: LIMIT + 1, seal: NONSENSE, released: u64::MAX });
    }
    for seal in no_classes(field) {
        for count in [0, 1, LIMIT] {
            failing(trial, RegisterValues { released: count, ..on_a(field, count, seal) });
        }
    }
}

pub fn run(trial: &mut Trial) {
    // before the first start
    trial.record(COMMIT, super::UNREAD, NEUTRAL);
    trial.expect_line("refused 106");
    for field in [BENCH, WIDE] {
        document_walk(trial, field);
        counts(trial, field);
        releases(trial, field);
        released_above(trial, field);
        registers(trial, field);
    }
}
