//! Suppressing one operation of an archive (document 02, request 9). The request says both how the last seal changes
//! and what it must equal: a fresh walk forward from the earliest seal. Here it is that walk. No multiple of a class is
//! taken and nothing is halved:
//!
//! - Where the earliest seal is known, as for archives that were made from it, the walk begins there
//!   (`suppressed_from`).
//! - Else two walks begin in the neutral class, over the operations as they were and as they become. The walk from the
//!   earliest seal is ahead of each by the same class, since all double equally often. So the last seal moves by the
//!   difference of the two (`suppressed`).

use crate::archive::Archive;
use crate::calls::seal_after_commit;
use crate::jacobian::{Class, Curve};
use crate::stored::Refusal;

/// By how much the output has to be longer than the input, else 101.
pub const GROWTH: usize = 48;

/// The seal after these operations, oldest first, from a first seal.
pub fn walked_forward(curve: &Curve, first: &Class, oldest_first: &[Class]) -> Class {
    oldest_first.iter().fold(first.clone(), |seal, operation| seal_after_commit(curve, &seal, operation))
}

/// Is operation k, counted from the oldest, paired to a later one that is not neutral?
pub fn is_held(archive: &Archive, k: u64) -> bool {
    let operations = archive.oldest_first();
    let holds = |later: u16| operations[later as usize - 1] != Class::neutral();
    archive.pairs.iter().any(|&(later, earlier)| earlier as u64 == k && holds(later))
}

/// 123 and 124 of an accepted archive; else the place of operation k in `oldest_first`.
fn place(archive: &Archive, k: u64) -> Result<usize, Refusal> {
    if !(1..=archive.operations.len() as u64).contains(&k) {
        return Err(123);
    }
    if is_held(archive, k) {
        return Err(124);
    }
    Ok(k as usize - 1)
}

/// The archive with operation k neutral, and the last seal that the operations after that, oldest first, give.
fn with_neutral(archive: &Archive, k: u64, seal: impl Fn(&[Class]) -> Class) -> Result<Archive, Refusal> {
    let mut oldest_first = archive.oldest_first();
    oldest_first[place(archive, k)?] = Class::neutral();
    let seal = seal(&oldest_first);
    let operations = oldest_first.into_iter().rev().collect();
    Ok(Archive { seal, operations, ..archive.clone() })
}

/// The archive with operation k suppressed, where the earliest seal is known.
pub fn suppressed_from(first: &Class, archive: &Archive, k: u64) -> Result<Archive, Refusal> {
    with_neutral(archive, k, |operations| walked_forward(&archive.curve, first, operations))
}

/// The same where it is not.
pub fn suppressed(archive: &Archive, k: u64) -> Result<Archive, Refusal> {
    let curve = &archive.curve;
    let from_neutral = |operations: &[Class]| walked_forward(curve, &Class::neutral(), operations);
    with_neutral(archive, k, |operations| {
        let moved = curve.difference(&from_neutral(operations), &from_neutral(&archive.oldest_first()));
        curve.sum(&archive.seal, &moved)
    })
}

/// Does an output of this length have room for what is written for an input of that length?
pub fn has_room(input_length: usize, output_length: usize) -> bool {
    output_length >= GROWTH && input_length <= output_length - GROWTH
}

/// The call on byte areas: the bytes that it writes at the start of an output of this length, or a refusal.
pub fn suppress(input: &[u8], k: u64, output_length: usize) -> Result<Vec<u8>, Refusal> {
    if !has_room(input.len(), output_length) {
        return Err(101);
    }
    suppressed(&Archive::read(input)?, k).map(|archive| archive.bytes())
}

#[cfg(test)]
mod tests;
