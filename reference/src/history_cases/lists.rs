//! Lists of calls drawn at random, commits and undos in any order, refused ones among them, some with releases; after
//! each list the accepted calls are taken back as far as the last accepted release, behind which an undo is refused.
//! Where only commits were accepted, the walk over their classes is these same undos; a walk goes past releases.
//!
//! The half that an undo needs is known on the curve (`ground`), or from the answer: the new seal is drawn first, and the
//! class is what leads to it.

use super::ground::{drawn_values, Ground, Halves};
use super::{RegisterValues, Trial, COMMIT, LIMIT, UNDO};
use crate::class_cases::{ClassValues, CurveValues};
use crate::field::{BENCH, WIDE};
use crate::jacobian::Class;
use crate::random::Random;

/// How a list is drawn: the count and the released step that it starts from, how many of sixteen calls are commits, how
/// many are releases, and how many calls there are.
struct Shape {
    count: u64,
    released: u64,
    commits: u64,
    releases: u64,
    calls: usize,
}

fn make(trial: &mut Trial, call: u8, class: &Class, half: impl FnOnce(&Class) -> Class) {
    match call {
        COMMIT => trial.commit(class.into()),
        _ => trial.undo(class.into(), half),
    }
}

/// One call: a refused one, one that leads to a seal drawn first, one with the class of the call before or its opposite,
/// one with the neutral class, or one with any class.
fn step(trial: &mut Trial, random: &mut Random, ground: &Ground, call: u8) {
    let seal = trial.register.seal.class(ground.curve).expect("the seal is a class");
    let last = trial.accepted.last().map(|last| last.class.class(ground.curve).expect("an accepted class"));
    let known = call == COMMIT || !matches!(ground.halves, Halves::FromAnswers);
    let class = match (random.number() % 8, last) {
        (0, _) => return trial.refused(call, ground.no_class(random)),
        (1 | 2, _) => None,
        (3, Some(last)) if known => Some(last),
        (4, Some(last)) if known => Some(ground.curve.opposite(&last)),
        (5, _) if known => Some(Class::neutral()),
        _ if known => Some(ground.class(random)),
        _ => None,
    };
    match class {
        Some(class) => make(trial, call, &class, |class| ground.half(class).expect("halves are known")),
        None => {
            let next = ground.class(random);
            make(trial, call, &ground.between(call, &seal, &next), |_| next);
        }
    }
}

/// A list, and taking it back.
fn list(trial: &mut Trial, random: &mut Random, ground: &Ground, shape: Shape) {
    let seal = if random.number() & 3 == 0 { Class::neutral() } else { ground.class(random) };
    let Shape { count, released, commits, releases, calls } = shape;
    trial.start(RegisterValues { curve: ground.values, count, seal: (&seal).into(), released });
    for _ in 0..calls {
        match random.number() % 16 {
            n if n < releases => trial.release(),
            n if n < releases + commits => step(trial, random, ground, COMMIT),
            _ => step(trial, random, ground, UNDO),
        }
    }
    trial.take_all_back();
    if trial.register.is_undo_barred() {
        trial.refused(UNDO, (&ground.class(random)).into());
    }
}

/// Lists on one curve: commits alone, with releases or without, both, mostly undos; from counts at both ends and
/// between, released or not.
fn on_curve(trial: &mut Trial, random: &mut Random, values: CurveValues, lists: usize, calls: usize) {
    let curve = values.curve().expect("the curve is accepted");
    let ground = Ground::new(values, &curve);
    for i in 0..lists {
        let between = random.number() % (LIMIT + 1);
        let count = [0, LIMIT - 4, 2, between][i % 4];
        let released = [0, count / 2, 0, count][i % 4];
        let (commits, releases) = [(16, 0), (13, 3), (3, 0), (8, 0), (8, 1), (12, 1), (16, 0)][i % 7];
        list(trial, random, &ground, Shape { count, released, commits, releases, calls });
    }
}

/// The stored lists, after the edges.
pub fn stored(trial: &mut Trial) {
    let mut random = Random::new(91);
    for [f3, f1, f0] in [[0, 0, 0], [12, 25, 6]] {
        on_curve(trial, &mut random, CurveValues::new(BENCH, f3, f1, f0), 4, 10);
    }
    let wide = [CurveValues::new(WIDE, 0, 0, 1), drawn_values(&mut random, WIDE), drawn_values(&mut random, WIDE)];
    for values in wide {
        on_curve(trial, &mut random, values, 4, 10);
    }
}

/// Lists on six curves of the bench field.
pub fn bench(trial: &mut Trial) {
    let mut random = Random::new(92);
    for i in 0..6 {
        let [f3, f1, f0] = match i {
            0 | 1 => [0, 0, i],
            _ => [0; 3].map(|_: u64| random.element(BENCH)),
        };
        on_curve(trial, &mut random, CurveValues::new(BENCH, f3, f1, f0), 36, 40);
    }
}

/// Lists over GF(2^61) on the eight curves with coefficients 0 and 1.
pub fn known_halves(trial: &mut Trial) {
    let mut random = Random::new(93);
    for i in 0..8 {
        on_curve(trial, &mut random, CurveValues::new(WIDE, i & 1, i >> 1 & 1, i >> 2), 6, 20);
    }
}

/// Lists over GF(2^61) on curves drawn from the whole field.
pub fn wide(trial: &mut Trial) {
    let mut random = Random::new(94);
    for _ in 0..40 {
        let values = drawn_values(&mut random, WIDE);
        on_curve(trial, &mut random, values, 4, 24);
    }
}

/// As many commits as there can be, over both fields: from count 0 to 1,024, 114 there, and all the way back, 113; then
/// a release, commits once more with releases among them, and the way back to the last one, 121.
pub fn full(trial: &mut Trial) {
    let mut random = Random::new(95);
    for values in [CurveValues::new(BENCH, 12, 25, 6), drawn_values(&mut random, WIDE)] {
        let curve = values.curve().expect("the curve is accepted");
        let ground = Ground::new(values, &curve);
        let seal = ground.class(&mut random);
        trial.start(RegisterValues { curve: values, count: 0, seal: (&seal).into(), released: 0 });
        let class = ClassValues::from(&ground.class(&mut random));
        trial.refused(UNDO, class);
        while trial.register.count < LIMIT {
            step(trial, &mut random, &ground, COMMIT);
        }
        trial.refused(COMMIT, class);
        trial.take_all_back();
        trial.refused(UNDO, class);
        trial.release();
        trial.refused(UNDO, class);
        while trial.register.count < LIMIT {
            step(trial, &mut random, &ground, COMMIT);
            if trial.register.count % 256 == 0 && trial.register.count < LIMIT {
                trial.release();
            }
        }
        trial.refused(COMMIT, class);
        trial.take_all_back();
        trial.refused(UNDO, class);
    }
}

/// An undo with every class of f = x^7 over the bench field, each taken back before the next: what is halved, and the new
/// seal, are every class once.
pub fn every_class(trial: &mut Trial) {
    let values = CurveValues::new(BENCH, 0, 0, 0);
    let curve = values.curve().expect("the curve is accepted");
    let ground = Ground::new(values, &curve);
    let seal = ground.class(&mut Random::new(96));
    trial.start(RegisterValues { curve: values, count: LIMIT, seal: (&seal).into(), released: LIMIT - 1 });
    for class in &ground.classes {
        make(trial, UNDO, class, |class| ground.half(class).expect("halves are known"));
        trial.take_back();
    }
    trial.show();
}
