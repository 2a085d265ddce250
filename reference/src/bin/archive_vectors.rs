//! Prints cases of the call that suppresses an operation, for tests/archive_calls: `archive_vectors KIND` those of one
//! of the kinds `all-k`, `full`, `truncations`, `changes`, `pairs` and `held`, `archive_vectors mutated N` the first N
//! drawn ones (src/archive_cases.rs). Each case is
//!
//! - k, in eight bytes, high byte first, as every number here;
//! - the length of the output, the length of the input, the refusal that is expected or 0, and the length that is
//!   expected, which is 0 for a refusal, in four bytes each;
//! - the input;
//! - the bytes that are expected at the start of the output, as many as the length expected says.
//!
//! So the head of a case has 24 bytes. No input and no output is longer than 65,536 bytes.

use reference::archive_cases::{cases, ArchiveCase, Mutated, KINDS};
use std::io::{BufWriter, Write};

fn print(cases: impl Iterator<Item = ArchiveCase>) {
    let mut output = BufWriter::new(std::io::stdout().lock());
    for case in cases {
        output.write_all(&case.bytes()).expect("standard output takes the bytes");
    }
    output.flush().expect("standard output takes the bytes");
}

/// Prints the cases that are asked for, where the words name some.
fn run(words: &[String]) -> Option<()> {
    match words {
        [kind, number] if kind == "mutated" => print(Mutated::new().take(number.parse().ok()?)),
        [kind] => print(cases(kind)?.into_iter()),
        _ => return None,
    }
    Some(())
}

fn main() {
    let words: Vec<String> = std::env::args().skip(1).collect();
    if run(&words).is_none() {
        eprintln!("usage: archive_vectors KIND with KIND one of {}, or archive_vectors mutated N", KINDS.join(" "));
        std::process::exit(2);
    }
}
