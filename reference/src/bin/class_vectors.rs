//! Makes cases of the program `conformance`: `class_vectors KIND FOLDER [F3 F1 F0]` writes what the program is given to
//! FOLDER/stdin and what is expected for that to FOLDER/stdout. The kinds are
//!
//! - `stored`, the cases that are kept with the program;
//! - `thousand`, doubles and halves over GF(2^61);
//! - `common`, six calls in the common case over GF(2^61), for bench/run;
//! - `bench-stamps` and `wide-stamps`, classes of stamps on many curves of the bench field and over GF(2^61);
//! - `every-stamp`, those of a curve of the bench field, with the curve's coefficients;
//! - `bench-multiples` and `order-multiples`, multiples and repeated halves of classes of a curve of the bench field,
//!   likewise, and `wide-multiples`, those over GF(2^61);
//! - those of the sweep over every class of a curve of the bench field, which take the curve's coefficients.

use reference::class_cases::{drawn, multiples, stamps, stored, sweep, Case, CurveValues};
use reference::field::BENCH;
use reference::write_case;

/// The kinds that take a curve's coefficients, beside those of the sweep.
const ON_CURVE: [&str; 3] = ["every-stamp", "bench-multiples", "order-multiples"];

/// The cases of a kind on a curve of the bench field.
fn on_curve(kind: &str, curve: CurveValues) -> Vec<Case> {
    match kind {
        "every-stamp" => stamps::every_stamp(curve),
        "bench-multiples" => multiples::bench(curve),
        "order-multiples" => multiples::order(curve),
        _ => sweep::cases(kind, curve),
    }
}

/// What the program is given, and what is expected for that.
fn made(kind: &str, coefficients: &[u64]) -> Option<(Vec<u8>, String)> {
    let cases = match (kind, coefficients) {
        ("stored", []) => return Some(stored()),
        ("thousand", []) => drawn::thousand(),
        ("common", []) => drawn::common(),
        ("bench-stamps", []) => stamps::bench(),
        ("wide-stamps", []) => stamps::wide(),
        ("wide-multiples", []) => multiples::wide(),
        (_, &[f3, f1, f0]) if ON_CURVE.contains(&kind) || sweep::KINDS.contains(&kind) => {
            on_curve(kind, CurveValues::new(BENCH, f3, f1, f0))
        }
        _ => return None,
    };
    Some((cases.iter().flat_map(Case::bytes).collect(), cases.into_iter().map(|case| case.line).collect()))
}

fn run(words: &[String]) -> Option<()> {
    let [kind, folder, coefficients @ ..] = words else { return None };
    let numbers: Vec<u64> = coefficients.iter().map(|word| word.parse().ok()).collect::<Option<_>>()?;
    let (input, output) = made(kind, &numbers)?;
    write_case(folder, input, output);
    Some(())
}

fn main() {
    let words: Vec<String> = std::env::args().skip(1).collect();
    if run(&words).is_none() {
        eprintln!("usage: class_vectors KIND FOLDER with KIND one of");
        eprintln!("stored thousand common bench-stamps wide-stamps wide-multiples,");
        eprintln!("or class_vectors KIND FOLDER F3 F1 F0 with KIND one of");
        eprintln!("{}", [&ON_CURVE[..], &sweep::KINDS].concat().join(" "));
        std::process::exit(2);
    }
}
