//! The reference's own `walkreport`: reads an archive on standard input, at most 65,536 bytes of it, and prints its walk
//! report. SEAL_FAULT names a fault of its letters or of what it makes of pairs, on which the tests of reports have to
//! fail:
//!
//! - `reversal-first`: a neutral operation whose next older one is neutral has `R`.
//! - `newest-not-neutral`: the newest operation has `-` where it is neutral.
//! - `pairs-refused`: an archive with pairs is refused with 112.
//! - `pairs-unchecked`: pairs that break their rules are accepted.

use reference::archive::{report, Archive, REPORT_LIMIT};
use reference::jacobian::Class;
use std::io::{stdin, stdout, Read, Write};

/// The line for so many operations undone, with a fault of its letter.
fn faulty(fault: &str, archive: &Archive, undone: usize, line: &str) -> String {
    let neutral = |i: usize| archive.operations.get(i) == Some(&Class::neutral());
    let letter = match fault {
        "reversal-first" if undone > 0 && neutral(undone - 1) && neutral(undone) => "R",
        "newest-not-neutral" if undone == 1 && neutral(0) => "-",
        "reversal-first" | "newest-not-neutral" | "pairs-refused" | "pairs-unchecked" => return line.to_string(),
        _ => panic!("no fault has the name {fault}"),
    };
    let parts: Vec<&str> = line.split(' ').collect();
    [parts[0], letter, parts[2]].join(" ")
}

/// The report of an accepted archive with a fault.
fn faulty_report(fault: &str, archive: &Archive) -> String {
    if fault == "pairs-refused" && !archive.pairs.is_empty() {
        return "refused 112\n".to_string();
    }
    let report = archive.report();
    let (first, seals) = report.split_once('\n').expect("a report has a first line");
    let lines = seals.lines().enumerate().map(|(undone, line)| faulty(fault, archive, undone, line) + "\n");
    format!("{first}\n{}", lines.collect::<String>())
}

/// The report of what stands before the pairs.
fn report_before_pairs(input: &[u8]) -> String {
    let accepted = (0..input.len()).find(|&length| Archive::read(&input[..length]).is_ok());
    report(&input[..accepted.expect("the archive is accepted without its pairs")])
}

fn main() {
    let mut input = vec![];
    stdin().take(REPORT_LIMIT as u64).read_to_end(&mut input).expect("standard input is read");
    let printed = match (std::env::var("SEAL_FAULT"), Archive::read(&input)) {
        (Ok(fault), Ok(archive)) => faulty_report(&fault, &archive),
        (Ok(fault), Err(122)) if fault == "pairs-unchecked" => report_before_pairs(&input),
        _ => report(&input),
    };
    stdout().write_all(printed.as_bytes()).expect("standard output takes the bytes");
}
