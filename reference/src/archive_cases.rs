//! Cases of the call that suppresses an operation of an archive (document 02, request 9), with what is expected of it.
//! They are the same in every run. The kinds, by the names that `archive_vectors` knows:
//!
//! - `all-k`, `full`: archives with every k, and the longest ones (`drawn`).
//! - `mutated`: drawn archives, k and output lengths, most of the archives mutated (`mutated`).
//! - `truncations`, `changes`: archives cut at each byte, and with each byte changed to every other value (`changed`).
//! - `pairs`: the field 0x48 at each edge of its rules (`pairs`).
//! - `held`: what holds an operation and what does not (`held`).
//!
//! What is expected of an archive whose earliest seal is known is a walk forward from it, and of another one what
//! `suppression::suppress` answers.

mod changed;
mod drawn;
mod held;
mod made;
mod mutated;
mod pairs;

pub use mutated::Mutated;

use crate::stored::Refusal;
use crate::suppression::{has_room, suppress, suppressed_from, GROWTH};
use made::Made;

/// No input and no output of a case is longer.
pub const LONGEST: usize = 65_536;

/// A call, and what is expected of it: the refusal, or 0 and the bytes written, of which a refusal has none.
#[derive(Clone, Debug, PartialEq, Eq)]
pub struct ArchiveCase {
    pub input: Vec<u8>,
    pub k: u64,
    pub output_length: usize,
    pub refusal: Refusal,
    pub written: Vec<u8>,
}

impl ArchiveCase {
    fn answered(input: Vec<u8>, k: u64, output_length: usize, answer: Result<Vec<u8>, Refusal>) -> ArchiveCase {
        let (refusal, written) = answer.map_or_else(|refusal| (refusal, vec![]), |written| (0, written));
        ArchiveCase { input, k, output_length, refusal, written }
    }

    /// Any input.
    fn new(input: Vec<u8>, k: u64, output_length: usize) -> ArchiveCase {
        let answer = suppress(&input, k, output_length);
        ArchiveCase::answered(input, k, output_length, answer)
    }

    /// Any input, and the shortest output that has room.
    fn in_room(input: Vec<u8>, k: u64) -> ArchiveCase {
        let output_length = input.len() + GROWTH;
        ArchiveCase::new(input, k, output_length)
    }

    /// An archive whose earliest seal is known.
    fn of_made(made: &Made, k: u64, output_length: usize) -> ArchiveCase {
        let input = made.archive.bytes();
        let answer = if has_room(input.len(), output_length) {
            suppressed_from(&made.first, &made.archive, k).map(|archive| archive.bytes())
        } else {
            Err(101)
        };
        ArchiveCase::answered(input, k, output_length, answer)
    }

    /// Such an archive, and the shortest output that has room.
    fn of_made_in_room(made: &Made, k: u64) -> ArchiveCase {
        ArchiveCase::of_made(made, k, made.archive.bytes().len() + GROWTH)
    }

    /// The case in a file: k in eight bytes, high byte first; the lengths of output and input, the refusal or 0, and
    /// the length that is answered, in four each; the input; the bytes written, which are as many as that length says.
    pub fn bytes(&self) -> Vec<u8> {
        let lengths = [self.output_length, self.input.len()].map(|length| length as u32);
        let numbers = [lengths[0], lengths[1], self.refusal, self.written.len() as u32].map(u32::to_be_bytes);
        [&self.k.to_be_bytes()[..], &numbers.concat(), &self.input, &self.written].concat()
    }
}

/// The kinds of a fixed number of cases.
pub const KINDS: [&str; 6] = ["all-k", "full", "truncations", "changes", "pairs", "held"];

/// The cases of such a kind.
pub fn cases(kind: &str) -> Option<Vec<ArchiveCase>> {
    Some(match kind {
        "all-k" => drawn::all_k(),
        "full" => drawn::full(),
        "truncations" => changed::truncations(),
        "changes" => changed::changes(),
        "pairs" => pairs::cases(),
        "held" => held::cases(),
        _ => return None,
    })
}

#[cfg(test)]
mod tests;
