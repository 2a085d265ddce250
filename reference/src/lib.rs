//! A second implementation of document 01, and of what document 02 adds to it, written from their text alone and by
//! other methods than the proved crates where there is a choice. Nothing here is proved: it makes the stored vectors
//! and the cases that the proved crates are run on.
//!
//! - `field`: GF(2^d) as polynomials over GF(2); the checked calls on elements.
//! - `polynomial`: polynomials in x over such a field.
//! - `jacobian`: curves y^2 + y = f(x), reduced classes, Cantor's rule.
//! - `halving`: halves found without halving rules.
//! - `multiples`: multiples of a class by sums alone, and repeated halves.
//! - `bench_classes`: every reduced class of a curve over the bench field.
//! - `class_number`: how many they are, from points alone.
//! - `element_cases`: the cases that the program `element_trial` is run on, and the lines that are expected of it.
//! - `class_cases`: the same for the program `conformance`: calls on classes.
//! - `history_cases`: the same for the program `history_trial`: commits, undos and releases on a register, and taking
//!   back.
//! - `stamp`: the class of an operation's stamp.
//! - `stored`: the stored form's writer and checking reader.
//! - `calls`: the eleven calls on byte areas.
//! - `archive`: the archive, its walk and the walk report.
//! - `suppression`: an archive with one operation suppressed.
//! - `archive_cases`: archives, k and output lengths, and what suppressing operation k has to answer for them.
//! - `byte_cases`: records and archives, mutated or not, and what the byte calls and the walk report have to
//!   answer for them.
//! - `samples`: the archives that are kept in examples/.
//! - `view_archives`: archives rich in neutral operations.
//! - `random`: a small generator with a fixed seed, for cases that are the same in every run.

pub mod archive;
pub mod archive_cases;
pub mod bench_classes;
pub mod byte_cases;
pub mod calls;
pub mod class_cases;
pub mod class_number;
pub mod element_cases;
pub mod field;
pub mod halving;
pub mod history_cases;
pub mod jacobian;
pub mod multiples;
pub mod polynomial;
pub mod random;
pub mod samples;
pub mod stamp;
pub mod stored;
pub mod suppression;
pub mod view_archives;

/// Writes what a program is given to the file stdin of a folder, and what is expected for that to the file stdout.
pub fn write_case(folder: &str, input: Vec<u8>, output: String) {
    for (name, bytes) in [("stdin", input), ("stdout", output.into_bytes())] {
        std::fs::write(std::path::Path::new(folder).join(name), bytes).expect("the folder takes the file");
    }
}
