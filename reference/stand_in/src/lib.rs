//! The byte calls of the reference under the C names of include/seal.h, include/seal_licence.h and
//! include/seal_archive.h, as a static library.
//! It stands in for the proved libraries where tests/seal_calls and tests/archive_calls are tested themselves: the
//! variable SEAL_FAULT, one of `FAULTS` or of `archive::FAULTS`, makes the calls wrong in one way, and the test has to
//! fail.

mod archive;

use reference::calls::{answer, seal_after_commit, Call};
use reference::jacobian::Class;
use reference::multiples::{doublings, HALVINGS_LIMIT, MULTIPLE_LIMIT};
use reference::stamp::{first_class, stamp_limit};
use reference::stored::{class_field, register_fields, released_field, Reader, Refusal, COUNT_LIMIT};
use std::sync::OnceLock;

/// The faults of the eleven calls on classes, stamps and registers, by name.
/// - `bound`: an output one byte too short is accepted where it would hold what is written.
/// - `scratch`: a refusal leaves a byte changed.
/// - `beyond`: one byte after those written is changed.
/// - `order`: bytes that remain after the last field are refused before the class is checked.
/// - `limit`: a commit is still accepted at count 1,024.
/// - `input`: a byte of the input is written and written back.
/// - `over-read`: one byte after the input is read.
/// - `half`: the half of a class of degree 1 is that class.
/// - `candidate`: the second candidate of a stamp is tried before the first.
/// - `six`: only the first six candidates are tried. With seven the answers would be right: the number of candidates that
///   have a root is even, so that the eighth is never the first.
/// - `lowest-bit`: the root with lowest bit 1 is taken.
/// - `stamp-bound`: the stamp 2^(d-3) is accepted.
/// - `stamp-order`: a stamp that is too large is refused before bytes that remain.
/// - `half-by-zero`: the half of a class of degree 2 divides by u1 also where that is 0, and hands on 117.
/// - `sum-by-zero`: the sum of two classes with the same u, of degree 1, divides by the difference of their roots, and
///   hands on 117.
/// - `multiple-bit`: only the lowest 60 binary digits of n count, one too few.
/// - `multiple-doubling`: the class is doubled n times, for n up to 64.
/// - `multiple-bound`: n = 2^61 is accepted, as 0.
/// - `multiple-order`: an n that is too large is refused before bytes that remain.
/// - `halvings-count`: one halving too few is made.
/// - `halvings-bound`: 65 halvings are accepted.
/// - `halvings-order`: a k that is too large is refused before bytes that remain.
/// - `sum-order`: the opposite of the sum is answered where the first class has the lower degree and is not neutral.
/// - `sum-grouping`: the same where both have degree 3, in either order.
/// - `sum-neutral`: the sum of a class with the neutral one is the opposite of the class, in either order.
/// - `sum-opposite`: the sum of a class with its opposite is the first of them, where they have degree 2 or 3.
/// - `commit-adds-first`: the class is added before the seal is doubled.
/// - `commit-subtracts`: the class is subtracted from the double of the seal.
/// - `commit-leaves-out`: a class of degree 3 is left out, and the seal is doubled alone.
/// - `all-neutral`: every class that is written, but a stamp's, is the neutral one, so that no seal moves.
/// - `register-room`: 60 bytes of output are enough for commit, undo and release where they hold what is written.
/// - `commit-clears`: a commit writes the released step 0.
/// - `undo-clears`: an undo does.
/// - `release-one-more`: a release writes one more than the count as the released step.
/// - `release-keeps`: a release writes the released step that it read.
/// - `release-doubles`: a release writes the double of the seal.
/// - `refused-release-writes`: a release with bytes after its record is refused, and writes the register all the same.
/// - `zero-late`: 121 comes before 113.
/// - `undo-behind`: an undo is accepted at the released step.
/// - `early-stop`: an undo is refused with 121 also one above the released step.
/// - `released-unchecked`: no call refuses a released step above the count.
/// - `released-late`: 120 comes after the checks of the seal.
/// - `seal-first`: commit, undo and release write 0x45 after 0x43.
/// - `released-left-out`: they write no 0x45.
/// - `reads-old`: they take a record without 0x45 as one of which nothing is released.
/// - `release-at-limit`: a release is refused with 114 at count 1,024.
/// - `release-at-zero`: a release is refused with 113 at count 0.
/// - `release-takes-operation`: a release passes over a 0x44 after the seal.
const FAULTS: [&str; 48] = [
    "bound",
    "scratch",
    "beyond",
    "order",
    "limit",
    "input",
    "over-read",
    "half",
    "candidate",
    "six",
    "lowest-bit",
    "stamp-bound",
    "stamp-order",
    "half-by-zero",
    "sum-by-zero",
    "multiple-bit",
    "multiple-doubling",
    "multiple-bound",
    "multiple-order",
    "halvings-count",
    "halvings-bound",
    "halvings-order",
    "sum-order",
    "sum-grouping",
    "sum-neutral",
    "sum-opposite",
    "commit-adds-first",
    "commit-subtracts",
    "commit-leaves-out",
    "all-neutral",
    "register-room",
    "commit-clears",
    "undo-clears",
    "release-one-more",
    "release-keeps",
    "release-doubles",
    "refused-release-writes",
    "zero-late",
    "undo-behind",
    "early-stop",
    "released-unchecked",
    "released-late",
    "seal-first",
    "released-left-out",
    "reads-old",
    "release-at-limit",
    "release-at-zero",
    "release-takes-operation",
];

/// The least number of halvings that is too large.
const TOO_OFTEN: u64 = HALVINGS_LIMIT + 1;

/// The fault that is asked for.
fn fault() -> &'static str {
    static FAULT: OnceLock<String> = OnceLock::new();
    let name = FAULT.get_or_init(|| std::env::var("SEAL_FAULT").unwrap_or_default());
    let known = [&FAULTS[..], &archive::FAULTS].concat();
    assert!(name.is_empty() || known.contains(&name.as_str()), "SEAL_FAULT is one of {known:?}");
    name
}

/// The candidates of a stamp in the order in which they are tried.
fn candidates(stamp: u64) -> impl Iterator<Item = u64> {
    let places: &[u64] = match fault() {
        "candidate" => &[1, 0, 2, 3, 4, 5, 6, 7],
        "six" => &[0, 1, 2, 3, 4, 5],
        _ => &[0, 1, 2, 3, 4, 5, 6, 7],
    };
    places.iter().map(move |c| 8 * stamp + c)
}

/// What a stamp's call writes, with one of its faults.
fn faulty_stamp(stamp: u64, input: &[u8]) -> Result<Vec<u8>, Refusal> {
    let mut reader = Reader::new(input);
    let curve = reader.curve()?;
    let limit = stamp_limit(curve.field);
    if fault() == "stamp-order" && stamp >= limit {
        return Err(115);
    }
    reader.end()?;
    if stamp > limit || stamp == limit && fault() != "stamp-bound" {
        return Err(115);
    }
    let mut bytes = class_field(&first_class(&curve, candidates(stamp)).ok_or(116u32)?);
    if fault() == "lowest-bit" {
        bytes[18] ^= 1;
    }
    Ok(bytes)
}

/// The answer of n doublings of the class in an accepted record.
fn doubled(n: u64, input: &[u8]) -> Result<(u32, Vec<u8>), Refusal> {
    let mut reader = Reader::new(input);
    let curve = reader.curve()?;
    let bytes = class_field(&doublings(&curve, n, &reader.class(&curve)?));
    Ok((bytes.len() as u32, bytes))
}

/// The answer of a call on a class with a number, with one of its faults; none where the fault does not show. `right` is
/// what should be answered.
fn faulty_number(call: Call, right: u32, input: &[u8], length: usize) -> Option<(u32, Vec<u8>)> {
    let accepted = right <= 100;
    match (fault(), call) {
        ("multiple-bit", Call::Multiple(n)) if accepted => {
            Some(answer(Call::Multiple(n % (1 << 60)), input, length))
        }
        ("multiple-doubling", Call::Multiple(n)) if accepted && n <= 64 => doubled(n, input).ok(),
        ("multiple-bound", Call::Multiple(MULTIPLE_LIMIT)) => Some(answer(Call::Multiple(0), input, length)),
        ("multiple-order", Call::Multiple(MULTIPLE_LIMIT..)) if right == 112 => Some((118, vec![])),
        ("halvings-count", Call::Halvings(k @ 1..)) if accepted => {
            Some(answer(Call::Halvings(k - 1), input, length))
        }
        ("halvings-bound", Call::Halvings(TOO_OFTEN)) if right == 119 => {
            let halved = answer(Call::Halvings(HALVINGS_LIMIT), input, length).1;
            Some(answer(Call::Half, &[&input[..31], &halved].concat(), length))
        }
        ("halvings-order", Call::Halvings(TOO_OFTEN..)) if right == 112 => Some((119, vec![])),
        _ => None,
    }
}

/// What an accepted sum writes, with one of its faults.
fn faulty_sum(input: &[u8]) -> Result<Vec<u8>, Refusal> {
    let mut reader = Reader::new(input);
    let curve = reader.curve()?;
    let (first, second) = (reader.class(&curve)?, reader.class(&curve)?);
    let (sum, degrees) = (curve.sum(&first, &second), [first.degree(), second.degree()]);
    let turned = match fault() {
        "sum-order" => degrees[0] > 0 && degrees[0] < degrees[1],
        "sum-grouping" => degrees == [3, 3],
        "sum-neutral" => degrees.contains(&0),
        _ => false,
    };
    if turned {
        return Ok(class_field(&curve.opposite(&sum)));
    }
    let stays = fault() == "sum-opposite" && sum == Class::neutral() && degrees[0] > 1;
    Ok(class_field(if stays { &first } else { &sum }))
}

/// What an accepted commit writes, with one of its faults.
fn faulty_commit(input: &[u8]) -> Result<Vec<u8>, Refusal> {
    let mut reader = Reader::new(input);
    let curve = reader.curve()?;
    let count = reader.count()?;
    let released = reader.released(count)?;
    let (seal, operation) = (reader.class(&curve)?, reader.operation(&curve)?);
    let next = match fault() {
        "commit-adds-first" => curve.double(&curve.sum(&seal, &operation)),
        "commit-subtracts" => curve.difference(&curve.double(&seal), &operation),
        "commit-leaves-out" if operation.degree() == 3 => curve.double(&seal),
        _ => seal_after_commit(&curve, &seal, &operation),
    };
    Ok(register_fields(count + 1, released, &next).concat())
}

/// The places of the fields 0x45 and 0x43 in a record of a register that is read so far.
const RELEASED_AT: usize = 36;
const SEAL_AT: usize = 41;

/// The answer to a record with another released step; what is written has the record's own.
fn with_released(call: Call, input: &[u8], released: u16, length: usize) -> (u32, Vec<u8>) {
    let mut other = input.to_vec();
    other[RELEASED_AT..SEAL_AT].copy_from_slice(&released_field(released));
    let (number, mut bytes) = answer(call, &other, length);
    if number <= 100 {
        bytes[5..10].copy_from_slice(&input[RELEASED_AT..SEAL_AT]);
    }
    (number, bytes)
}

/// What an accepted call on a register writes, with one of the faults of the released step; none where it does not
/// show.
fn faulty_written(call: Call, right: &[u8], input: &[u8]) -> Option<Vec<u8>> {
    let with = |released: &[u8]| Some([&right[..5], released, &right[10..]].concat());
    let count = u16::from_be_bytes([right[3], right[4]]);
    match (fault(), call) {
        ("commit-clears", Call::Commit) | ("undo-clears", Call::Undo) => with(&released_field(0)),
        ("release-one-more", Call::Release) => with(&released_field(count + 1)),
        ("release-keeps", Call::Release) => with(&input[RELEASED_AT..SEAL_AT]),
        ("release-doubles", Call::Release) => {
            let mut reader = Reader::new(input);
            let curve = reader.curve().ok()?;
            let mut seal = Reader::new(&right[10..]);
            let doubled = class_field(&curve.double(&seal.class(&curve).ok()?));
            Some([&right[..10], &doubled].concat())
        }
        ("seal-first", _) => Some([&right[..5], &right[10..], &right[5..10]].concat()),
        ("released-left-out", _) => with(&[]),
        _ => None,
    }
}

/// The answer of a call on a register, with one of the faults of the released step; none where it does not show.
/// `right` is what should be answered.
fn faulty_register(call: Call, right: &(u32, Vec<u8>), input: &[u8], length: usize) -> Option<(u32, Vec<u8>)> {
    if right.0 <= 100 {
        let count = u16::from_be_bytes([input[34], input[35]]);
        let released = u16::from_be_bytes([input[39], input[40]]);
        return match (fault(), call) {
            ("early-stop", Call::Undo) if released > 0 && count == released + 1 => Some((121, vec![])),
            ("release-at-limit", Call::Release) if count == COUNT_LIMIT => Some((114, vec![])),
            ("release-at-zero", Call::Release) if count == 0 => Some((113, vec![])),
            _ => faulty_written(call, &right.1, input).map(|bytes| (bytes.len() as u32, bytes)),
        };
    }
    match (fault(), right.0) {
        ("register-room", 101) if length == 60 => {
            let (number, bytes) = answer(call, input, 61);
            (bytes.len() <= length).then_some((number, bytes))
        }
        ("zero-late", 113) => Some((121, vec![])),
        ("undo-behind", 121) => Some(with_released(call, input, 0, length)),
        ("released-unchecked", 120) => Some(with_released(call, input, 0, length)),
        ("released-late", 120) => {
            let (number, _) = with_released(call, input, 0, length);
            [102, 103, 104, 105, 110, 111].contains(&number).then_some((number, vec![]))
        }
        ("reads-old", 103) if input.len() > RELEASED_AT && input[RELEASED_AT] == 0x43 => {
            let with_released = [&input[..RELEASED_AT], &released_field(0), &input[RELEASED_AT..]].concat();
            Some(answer(call, &with_released, length))
        }
        ("release-takes-operation", 112) if call == Call::Release => {
            let seal_end = SEAL_AT + 3 + input[SEAL_AT + 2] as usize;
            let read = input[seal_end] == 0x44 && answer(Call::Commit, input, length).0 != 112;
            read.then(|| answer(call, &input[..seal_end], length))
        }
        _ => None,
    }
}

/// What an accepted call writes, with a fault by which a law of the group fails; none where the fault does not show.
fn faulty_group(call: Call, right: &[u8], input: &[u8]) -> Option<Vec<u8>> {
    match (fault(), call) {
        ("sum-order" | "sum-grouping" | "sum-neutral" | "sum-opposite", Call::Sum) => faulty_sum(input).ok(),
        ("commit-adds-first" | "commit-subtracts" | "commit-leaves-out", Call::Commit) => faulty_commit(input).ok(),
        ("all-neutral", Call::Membership | Call::Stamp(_)) => None,
        ("all-neutral", _) => {
            let before = if call.is_of_register() { &right[..10] } else { &[] };
            Some([before, &class_field(&Class::neutral())].concat())
        }
        _ => None,
    }
}

/// An answer that is wrong in the way asked for.
fn faulty(call: Call, input: &[u8], length: usize) -> (u32, Vec<u8>) {
    let right = answer(call, input, length);
    match fault() {
        "bound" if length + 1 == call.output_bound() => {
            let (number, bytes) = answer(call, input, length + 1);
            if bytes.len() <= length {
                return (number, bytes);
            }
        }
        "order" if right.0 == 111 && !call.is_of_register() && input[33] == 16 && input.len() > 31 + 19 => {
            return (112, vec![]);
        }
        "limit" if right.0 == 114 => {
            let mut lower = input.to_vec();
            lower[34..36].copy_from_slice(&1023u16.to_be_bytes());
            let (number, mut bytes) = answer(call, &lower, length);
            if number <= 100 {
                bytes[3..5].copy_from_slice(&1025u16.to_be_bytes());
            }
            return (number, bytes);
        }
        "half" if call == Call::Half && right.0 <= 100 && input[33] == 16 => {
            return (19, input[31..].to_vec());
        }
        "half-by-zero" if call == Call::Half && right.0 <= 100 && input[33] == 32 && input[34..42] == [0; 8] => {
            return (117, vec![]);
        }
        "sum-by-zero" if call == Call::Sum && right.0 <= 100 && input[33] == 16 && input[52] == 16 => {
            if input[34..42] == input[53..61] {
                return (117, vec![]);
            }
        }
        "candidate" | "six" | "lowest-bit" | "stamp-bound" | "stamp-order" => {
            if let Call::Stamp(stamp) = call {
                if right.0 != 101 {
                    return faulty_stamp(stamp, input).map_or_else(|number| (number, vec![]), |bytes| (19, bytes));
                }
            }
        }
        _ => {}
    }
    if call.is_of_register() {
        if let Some(wrong) = faulty_register(call, &right, input, length) {
            return wrong;
        }
    }
    if right.0 <= 100 {
        if let Some(bytes) = faulty_group(call, &right.1, input) {
            return (bytes.len() as u32, bytes);
        }
    }
    faulty_number(call, right.0, input, length).unwrap_or(right)
}

/// The bytes of an area. An empty one may be null, which a slice must not be.
///
/// # Safety
/// The area is as long as said.
unsafe fn bytes_of<'a>(input: *const u8, length: usize) -> &'a [u8] {
    if length == 0 {
        &[]
    } else {
        std::slice::from_raw_parts(input, length)
    }
}

/// Writes a byte of the input and writes it back.
///
/// # Safety
/// The area is as long as said.
unsafe fn write_input(input: *const u8, length: usize) {
    if length > 0 {
        let first = input as *mut u8;
        let kept = first.read_volatile();
        first.write_volatile(!kept);
        first.write_volatile(kept);
    }
}

/// Reads one byte after the input.
///
/// # Safety
/// The area is as long as said. What follows it may be no memory at all: that is the fault.
unsafe fn read_over(input: *const u8, length: usize) {
    if length > 0 {
        std::hint::black_box(input.add(length).read_volatile());
    }
}

/// # Safety
/// The areas are as long as said and do not overlap.
unsafe fn run(call: Call, input: *const u8, input_length: usize, output: *mut u8, output_length: usize) -> u32 {
    let bytes = bytes_of(input, input_length);
    let (answer, written) = faulty(call, bytes, output_length);
    std::ptr::copy_nonoverlapping(written.as_ptr(), output, written.len());
    match fault() {
        "refused-release-writes" if call == Call::Release && answer == 112 => {
            let seal_end = SEAL_AT + 3 + bytes[SEAL_AT + 2] as usize;
            let anyhow = reference::calls::answer(call, &bytes[..seal_end], output_length).1;
            std::ptr::copy_nonoverlapping(anyhow.as_ptr(), output, anyhow.len());
        }
        "scratch" if answer > 100 && output_length > 0 => *output.add(output_length - 1) ^= 1,
        "beyond" if answer <= 100 && written.len() < output_length => *output.add(written.len()) ^= 1,
        "input" => write_input(input, input_length),
        "over-read" => read_over(input, input_length),
        _ => {}
    }
    answer
}

/// # Safety
/// The area is as long as said.
#[no_mangle]
pub unsafe extern "C" fn seal_membership(input: *const u8, input_length: usize) -> u32 {
    run(Call::Membership, input, input_length, std::ptr::null_mut(), 0)
}

macro_rules! exported {
    ($($name:ident $call:ident),*) => {$(
        /// # Safety
        /// The areas are as long as said and do not overlap.
        #[no_mangle]
        pub unsafe extern "C" fn $name(
            input: *const u8,
            input_length: usize,
            output: *mut u8,
            output_length: usize,
        ) -> u32 {
            run(Call::$call, input, input_length, output, output_length)
        }
    )*};
}

exported!(
    seal_opposite Opposite, seal_sum Sum, seal_double Double, seal_half Half, seal_commit Commit, seal_undo Undo,
    seal_release Release
);

macro_rules! exported_with_number {
    ($($name:ident $call:ident),*) => {$(
        /// # Safety
        /// The areas are as long as said and do not overlap.
        #[no_mangle]
        pub unsafe extern "C" fn $name(
            input: *const u8,
            input_length: usize,
            number: u64,
            output: *mut u8,
            output_length: usize,
        ) -> u32 {
            run(Call::$call(number), input, input_length, output, output_length)
        }
    )*};
}

exported_with_number!(seal_stamp Stamp, seal_multiple Multiple, seal_halvings Halvings);
