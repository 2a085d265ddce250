//! Prints cases of the byte calls for tests/seal_calls, in the bytes that `ByteCase::bytes` gives: `byte_vectors N` the
//! first N records, mutated or not; `byte_vectors changes` every release with one byte changed.

use reference::byte_cases::{changed_releases, ByteCase, Mutated};
use std::io::{BufWriter, Write};

fn print(cases: impl Iterator<Item = ByteCase>) {
    let mut output = BufWriter::new(std::io::stdout().lock());
    for case in cases {
        output.write_all(&case.bytes()).expect("standard output takes the bytes");
    }
    output.flush().expect("standard output takes the bytes");
}

fn main() {
    let word = std::env::args().nth(1).unwrap_or_default();
    match word.parse() {
        Ok(number) => print(Mutated::new().take(number)),
        Err(_) if word == "changes" => print(changed_releases()),
        Err(_) => {
            eprintln!("usage: byte_vectors N, or byte_vectors changes");
            std::process::exit(2);
        }
    }
}
