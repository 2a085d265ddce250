use super::edges::{no_classes, X, X_ONE};
use super::*;
use crate::class_cases::NEUTRAL;
use crate::field::{BENCH, WIDE};
use std::collections::HashSet;

fn register(degree: u8, count: u64, seal: ClassValues) -> RegisterValues {
    RegisterValues { curve: CurveValues { degree, f3: 0, f1: 0, f0: 0 }, count, seal, released: 0 }
}

/// The calls of a trial that have a line: the degree of the register's field, the call and the line.
fn calls(trial: &Trial) -> Vec<(u8, u8, String)> {
    let mut degree = 0;
    let mut lines = trial.output.lines();
    let mut calls = vec![];
    for record in trial.input.chunks_exact(RECORD) {
        if record[0] == START {
            degree = record[1];
        } else {
            calls.push((degree, record[0], lines.next().expect("a line is expected").to_string()));
        }
    }
    calls
}

#[test]
fn bytes_of_a_record() {
    let curve = CurveValues { degree: 61, f3: 0x0102030405060708, f1: 2, f0: 3 };
    let seal = ClassValues { degree: 5, u: [6, 7, 8], v: [9, 10, 11] };
    let class = ClassValues { degree: 13, u: [14, 15, 16], v: [17, 18, 19] };
    let mut trial = Trial::new();
    trial.record(START, RegisterValues { curve, count: 4, seal, released: 12 }, class);
    assert_eq!(trial.input.len(), RECORD);
    assert_eq!(trial.input[..10], [0, 61, 1, 2, 3, 4, 5, 6, 7, 8]);
    for (i, number) in (2..20).enumerate() {
        assert_eq!(trial.input[10 + 8 * i..18 + 8 * i], [0, 0, 0, 0, 0, 0, 0, number]);
    }
}

/// Document 01's walk, the half found by the definition alone, and the commits that lead there.
#[test]
fn walk_of_the_document() {
    for field in [BENCH, WIDE] {
        let mut trial = Trial::new();
        trial.start(register(field.degree as u8, 0, X));
        trial.commit(X);
        trial.commit(X_ONE);
        trial.show();
        trial.take_all_back();
        let d = field.degree;
        let lines = [
            "1 0 3:0,0,0:0,0,0",
            "2 0 2:0,0:0,1",
            &format!("{d} 0,0,0 2 0 2:0,0,0:0,0,1"),
            &format!("{d} 0,0,0 2 0 2:0,0,0:0,0,1"),
            "1 0 3:0,0,0:0,0,0",
            "0 0 1:0:0",
            &format!("{d} 0,0,0 0 0 1:0,0,0:0,0,0"),
        ];
        assert_eq!(trial.output.lines().collect::<Vec<_>>(), lines);
    }
}

/// A session with a release, written out by hand: what is committed after it can be undone, and no more; a second
/// release changes nothing; the commit and the undo keep the released step.
#[test]
fn session_with_a_release() {
    let mut trial = Trial::new();
    trial.start(register(61, 0, X));
    trial.release();
    trial.undo(X, |_| panic!("not refused"));
    trial.commit(X);
    trial.release();
    trial.release();
    trial.undo(X, |_| panic!("not refused"));
    trial.commit(X_ONE);
    trial.take_all_back();
    trial.undo(X, |_| panic!("not refused"));
    trial.show();
    let lines = [
        "0 0 1:0:0",
        "refused 113",
        "1 0 3:0,0,0:0,0,0",
        "1 1 3:0,0,0:0,0,0",
        "1 1 3:0,0,0:0,0,0",
        "refused 121",
        "2 1 2:0,0:0,1",
        "61 0,0,0 2 1 2:0,0,0:0,0,1",
        "1 1 3:0,0,0:0,0,0",
        "61 0,0,0 1 1 3:0,0,0:0,0,0",
        "refused 121",
        "61 0,0,0 1 1 3:0,0,0:0,0,0",
    ];
    assert_eq!(trial.output.lines().collect::<Vec<_>>(), lines);
}

/// Refusals written out by hand, in the order of documents 01 and 02.
#[test]
fn refusals_by_hand() {
    let commit = |register: RegisterValues, class| register.commit(class).map(|next| next.count);
    let undo = |register: RegisterValues, class| register.undo(class, |_| Class::neutral()).map(|next| next.count);
    assert_eq!(commit(register(5, 1023, X), NEUTRAL), Ok(1024));
    assert_eq!(commit(register(5, 1024, X), NEUTRAL), Err(114));
    assert_eq!(commit(register(5, 1025, X), NEUTRAL), Err(109));
    assert_eq!(commit(register(5, 0, X), NEUTRAL), Ok(1));
    assert_eq!(undo(register(5, 1024, X), X), Ok(1023));
    assert_eq!(undo(register(5, 1025, X), X), Err(109));
    assert_eq!(undo(register(5, 1, X), X), Ok(0));
    assert_eq!(undo(register(5, 0, X), X), Err(113));
    let numbers = [104, 104, 110, 110, 111];
    for (bad, number) in no_classes(BENCH).into_iter().zip(numbers) {
        assert_eq!(undo(register(5, 0, X), bad), Err(number));
        assert_eq!(commit(register(5, 1024, X), bad), Err(number));
        assert_eq!(commit(register(5, 1024, bad), NONSENSE), Err(number));
        assert_eq!(undo(register(5, 1025, bad), NONSENSE), Err(109));
    }
    let released = |count, released, seal| RegisterValues { released, ..register(5, count, seal) };
    assert_eq!(undo(released(7, 7, X), X), Err(121));
    assert_eq!(undo(released(7, 6, X), X), Ok(6));
    assert_eq!(undo(released(7, 8, NONSENSE), NONSENSE), Err(120));
    assert_eq!(commit(released(7, 8, NONSENSE), NONSENSE), Err(120));
    assert_eq!(commit(released(1024, 1024, X), X), Err(114));
    assert_eq!(commit(released(1025, 1026, X), X), Err(109));
    for (count, before) in [(0, 0), (7, 7), (7, 0), (1024, 0), (1024, 1024)] {
        assert_eq!(released(count, before, X).release(), Ok(released(count, count, X)));
        assert_eq!(released(count, count + 1, X).release(), Err(120));
    }
    for (bad, number) in no_classes(BENCH).into_iter().zip(numbers) {
        assert_eq!(undo(released(7, 7, X), bad), Err(number));
        assert_eq!(released(7, 7, bad).release(), Err(number));
        assert_eq!(released(7, 8, bad).release(), Err(120));
    }
    assert_eq!(released(1025, 1026, X).release(), Err(109));
    assert_eq!(undo(register(6, 1025, NONSENSE), NONSENSE), Err(106));
    assert_eq!(register(6, 1025, NONSENSE).release(), Err(106));
    let mut beyond = register(5, 1025, NONSENSE);
    beyond.curve.f1 = 32;
    assert_eq!(undo(beyond, NONSENSE), Err(107));
}

/// The three calls meet every refusal and every degree of a seal, over both fields.
#[test]
fn every_outcome_of_the_three_calls() {
    let calls = calls(&stored());
    for (call, last) in [(COMMIT, &["114"][..]), (UNDO, &["113", "121"]), (RELEASE, &[])] {
        for field in [BENCH, WIDE] {
            let of_call = calls.iter().filter(|(degree, c, _)| *degree as u32 == field.degree && *c == call);
            let lines: Vec<&str> = of_call.map(|(_, _, line)| line.as_str()).collect();
            let refused: HashSet<&str> = lines.iter().filter_map(|line| line.strip_prefix("refused ")).collect();
            let numbers = [&["104", "107", "109", "110", "111", "120"], last].concat();
            assert_eq!(refused, HashSet::from_iter(numbers));
            let seals = lines.iter().filter(|line| !line.starts_with("refused"));
            let degrees: HashSet<char> =
                seals.map(|line| line.split(' ').nth(2).and_then(|seal| seal.chars().next()).unwrap()).collect();
            assert_eq!(degrees, HashSet::from(['0', '1', '2', '3']));
        }
        assert!(calls
            .iter()
            .any(|(degree, c, line)| ![5, 61].contains(degree) && *c == call && line == "refused 106"));
    }
}

/// No list is taken back behind its last accepted release: behind it every undo is refused. Lists with releases and
/// without have calls taken back.
#[test]
fn no_further_than_the_last_release() {
    for make in [lists::bench, lists::known_halves, lists::wide, lists::full] {
        let mut trial = Trial::new();
        make(&mut trial);
        let (mut last, mut releases, mut undone) = (0, 0, 0);
        let mut lines = trial.output.lines();
        for record in trial.input.chunks_exact(RECORD) {
            if record[0] == START {
                last = u64::from_be_bytes(record[90..98].try_into().unwrap());
                continue;
            }
            let line = lines.next().expect("a line is expected");
            if record[0] == SHOW || line.starts_with("refused") {
                continue;
            }
            let mut numbers = line.split(' ').map_while(|word| word.parse::<u64>().ok());
            let (count, released) = (numbers.next().unwrap(), numbers.next().unwrap());
            if record[0] == RELEASE {
                last = count;
                releases += 1;
            }
            undone += (record[0] == UNDO) as u64;
            assert!(released == last && count >= last, "{line}");
        }
        assert!(releases > 3 && undone > 20, "{releases} {undone}");
    }
}

/// What was noted for taking back is what the rules give.
#[test]
fn taking_back_by_the_rules() {
    let mut trial = Trial::new();
    trial.start(register(61, 1020, X));
    for class in [X, NEUTRAL, X_ONE, X, X_ONE] {
        trial.commit(class);
    }
    assert_eq!(trial.accepted.len(), 4);
    let mut register = trial.register;
    for Accepted { call, class, before } in trial.accepted.into_iter().rev() {
        assert_eq!(call, COMMIT);
        let seal = before.seal.class(&before.curve.curve().unwrap()).unwrap();
        assert_eq!(register.undo(class, |_| seal), Ok(before));
        register = before;
    }
}
