//! The eleven calls on byte areas (document 01, 'Stored form', 'The register' and 'In checking order'; document 02,
//! requests 2, 4 and 8).

use crate::halving::half;
use crate::jacobian::{Class, Curve};
use crate::multiples::{halvings, multiple};
use crate::stamp::class_of_stamp;
use crate::stored::{class_field, register_fields, Reader, Refusal, COUNT_LIMIT};

#[derive(Clone, Copy, Debug, PartialEq, Eq, Hash)]
pub enum Call {
    Membership,
    Opposite,
    Sum,
    Double,
    Half,
    Commit,
    Undo,
    Release,
    /// With the stamp, which is handed over beside the input.
    Stamp(u64),
    /// With the factor, likewise.
    Multiple(u64),
    /// With the number of halvings, likewise.
    Halvings(u64),
}

/// All of them, the last three with the number 0.
pub const CALLS: [Call; 11] = [
    Call::Membership,
    Call::Opposite,
    Call::Sum,
    Call::Double,
    Call::Half,
    Call::Commit,
    Call::Undo,
    Call::Release,
    Call::Stamp(0),
    Call::Multiple(0),
    Call::Halvings(0),
];

impl Call {
    /// The call with this number beside the input, where it takes one.
    pub fn with_beside(self, number: u64) -> Call {
        match self {
            Call::Stamp(_) => Call::Stamp(number),
            Call::Multiple(_) => Call::Multiple(number),
            Call::Halvings(_) => Call::Halvings(number),
            other => other,
        }
    }

    /// The number that is handed over beside the input, 0 where the call takes none.
    pub fn beside(self) -> u64 {
        match self {
            Call::Stamp(number) | Call::Multiple(number) | Call::Halvings(number) => number,
            _ => 0,
        }
    }

    /// The call's number in a file of cases: its place in `CALLS`.
    pub fn number(self) -> u8 {
        let same = |&call: &Call| call == self.with_beside(0);
        CALLS.iter().position(same).expect("the row has every call") as u8
    }

    /// How many bytes the output must have, else 101.
    pub fn output_bound(self) -> usize {
        match self {
            Call::Membership => 0,
            Call::Commit | Call::Undo | Call::Release => 61,
            _ => 51,
        }
    }

    pub fn is_of_register(self) -> bool {
        matches!(self, Call::Commit | Call::Undo | Call::Release)
    }

    /// Does the call read an operation's class?
    pub fn takes_operation(self) -> bool {
        matches!(self, Call::Commit | Call::Undo)
    }
}

/// The seal after a commit: twice the old seal plus the operation's class.
pub fn seal_after_commit(curve: &Curve, seal: &Class, operation: &Class) -> Class {
    curve.sum(&curve.double(seal), operation)
}

/// The seal after an undo: the half of what is left of the seal when the class is subtracted.
pub fn seal_after_undo(curve: &Curve, seal: &Class, operation: &Class) -> Class {
    half(curve, &curve.difference(seal, operation))
}

/// The bytes that an accepted call on a register writes; the degree and the curve have been read.
fn written_register(call: Call, curve: &Curve, mut reader: Reader) -> Result<Vec<u8>, Refusal> {
    let count = reader.count()?;
    let released = reader.released(count)?;
    let seal = reader.class(curve)?;
    let operation = if call.takes_operation() { Some(reader.operation(curve)?) } else { None };
    reader.end()?;
    let (count, released, seal) = match (call, operation) {
        (Call::Commit, Some(_)) if count == COUNT_LIMIT => return Err(114),
        (Call::Commit, Some(operation)) => (count + 1, released, seal_after_commit(curve, &seal, &operation)),
        (Call::Undo, Some(_)) if count == 0 => return Err(113),
        (Call::Undo, Some(_)) if count == released => return Err(121),
        (Call::Undo, Some(operation)) => (count - 1, released, seal_after_undo(curve, &seal, &operation)),
        _ => (count, count, seal),
    };
    Ok(register_fields(count, released, &seal).concat())
}

/// The bytes that an accepted call writes.
fn written(call: Call, input: &[u8]) -> Result<Vec<u8>, Refusal> {
    let mut reader = Reader::new(input);
    let curve = reader.curve()?;
    if call.is_of_register() {
        return written_register(call, &curve, reader);
    }
    if let Call::Stamp(stamp) = call {
        reader.end()?;
        return Ok(class_field(&class_of_stamp(&curve, stamp)?));
    }
    let class = reader.class(&curve)?;
    let second = if call == Call::Sum { Some(reader.class(&curve)?) } else { None };
    reader.end()?;
    let expected = match (call, second) {
        (Call::Opposite, _) => curve.opposite(&class),
        (Call::Sum, Some(second)) => curve.sum(&class, &second),
        (Call::Double, _) => curve.double(&class),
        (Call::Half, _) => half(&curve, &class),
        (Call::Multiple(n), _) => multiple(&curve, n, &class)?,
        (Call::Halvings(k), _) => halvings(&curve, k, &class)?,
        _ => return Ok(vec![]),
    };
    Ok(class_field(&expected))
}

/// The answer, and what the call writes at the start of an output of this length; on a refusal nothing.
pub fn answer(call: Call, input: &[u8], output_length: usize) -> (u32, Vec<u8>) {
    if output_length < call.output_bound() {
        return (101, vec![]);
    }
    match written(call, input) {
        Ok(bytes) => (bytes.len() as u32, bytes),
        Err(refusal) => (refusal, vec![]),
    }
}

/// The answer, and the output area afterwards.
pub fn run(call: Call, input: &[u8], output: &[u8]) -> (u32, Vec<u8>) {
    let (answer, mut after) = answer(call, input, output.len());
    after.extend(&output[after.len()..]);
    (answer, after)
}

#[cfg(test)]
mod tests;
