//! Makes cases of the program `history_trial`: `history_vectors KIND FOLDER` writes what the program is given to
//! FOLDER/stdin and what is expected for that to FOLDER/stdout. The kinds are
//!
//! - `stored`, the cases that are kept with the program;
//! - `bench`, `known-halves` and `wide`, lists of calls, some with releases, that are taken back as far as the last
//!   release: over the bench field, on curves over GF(2^61) where every half is known, and on any curve over GF(2^61);
//! - `full`, 1,024 commits and the way back, without releases and with them;
//! - `every-class`, an undo with every class of f = x^7 over the bench field;
//! - `displacement`, lists of 1 to 64 commits over both fields, each once more with one operation changed.

use reference::history_cases::{displacement, lists, stored, Trial};
use reference::write_case;

fn made(kind: &str) -> Option<Trial> {
    let run = match kind {
        "stored" => return Some(stored()),
        "bench" => lists::bench,
        "known-halves" => lists::known_halves,
        "wide" => lists::wide,
        "full" => lists::full,
        "every-class" => lists::every_class,
        "displacement" => displacement::lists,
        _ => return None,
    };
    let mut trial = Trial::new();
    run(&mut trial);
    Some(trial)
}

fn main() {
    let words: Vec<String> = std::env::args().skip(1).collect();
    let wanted = match &words[..] {
        [kind, folder] => made(kind).map(|trial| (trial, folder)),
        _ => None,
    };
    let Some((trial, folder)) = wanted else {
        eprintln!(
            "usage: history_vectors KIND FOLDER with KIND one of stored bench known-halves wide full every-class displacement"
        );
        std::process::exit(2);
    };
    write_case(folder, trial.input, trial.output);
}
