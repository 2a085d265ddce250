//! Makes archives and the reports expected of `walkreport` for them: `archives samples FOLDER` those that are kept in
//! examples/, `archives failures FOLDER` those in examples/failures/, `archives views FOLDER` those that are rich in neutral
//! operations, `archives N FOLDER` the first N of the mutated ones.
//! Each is written to FOLDER/NAME.bin, its report to FOLDER/NAME.report. With the failures come the printed seal of a
//! release, `dozen.seal`, and another tool's report, `low-degrees.other-report`.

use reference::archive::report;
use reference::byte_cases::archives;
use reference::samples::{failures, other_report, release_seal, samples};
use reference::view_archives::view_archives;
use std::fs::write;
use std::path::Path;

/// How many operations the archives rich in neutral ones have at most.
const MOST_IN_VIEWS: u32 = 4;

fn made(kind: &str) -> Option<Vec<(String, Vec<u8>, String)>> {
    if kind == "samples" {
        let with_report = |(name, bytes): (&str, Vec<u8>)| (name.to_string(), bytes.clone(), report(&bytes));
        return Some(samples().map(|(name, archive)| with_report((name, archive.bytes()))).to_vec());
    }
    if kind == "failures" {
        return Some(failures().map(|(name, bytes)| (name.to_string(), bytes.clone(), report(&bytes))).to_vec());
    }
    let cases = if kind == "views" {
        view_archives(MOST_IN_VIEWS).iter().map(|archive| (archive.bytes(), archive.report())).collect()
    } else {
        archives(kind.parse().ok()?)
    };
    let numbered = |(i, (bytes, report))| (format!("{i:05}"), bytes, report);
    Some(cases.into_iter().enumerate().map(numbered).collect())
}

fn main() {
    let words: Vec<String> = std::env::args().skip(1).collect();
    let made = match &words[..] {
        [kind, folder] => made(kind).map(|made| (made, Path::new(folder))),
        _ => None,
    };
    let Some((made, folder)) = made else {
        eprintln!("usage: archives samples | failures | views | N FOLDER");
        std::process::exit(2);
    };
    let put = |name: String, bytes: &[u8]| write(folder.join(name), bytes).expect("the folder takes the file");
    for (name, bytes, report) in made {
        put(format!("{name}.bin"), &bytes);
        put(format!("{name}.report"), report.as_bytes());
    }
    if words[0] == "failures" {
        put("dozen.seal".to_string(), release_seal().as_bytes());
        put("low-degrees.other-report".to_string(), other_report().as_bytes());
    }
}
