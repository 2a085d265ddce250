//! The call on an archive, `seal_suppress`, right or with one of its faults.

use crate::{bytes_of, fault, read_over, write_input};
use reference::archive::Archive;
use reference::jacobian::Class;
use reference::multiples::doublings;
use reference::stored::{Pair, Reader, Refusal, PAIRS};
use reference::suppression::{suppress, walked_forward, GROWTH};

/// The faults of this call, by name. The fault `over-read` of the other calls is one of it too.
/// - `seal-kept`: the last seal is left as it was.
/// - `one-doubling-few`: the class is doubled once too few before it is subtracted, where it has to be doubled at all.
/// - `class-removed`: the operation's field is left out, and the count is kept.
/// - `held-unasked`: 124 is not asked.
/// - `pair-swapped`: an operation is held where an earlier one that is paired to it is not neutral.
/// - `pairs-dropped`: 0x48 is not copied.
/// - `ascending-loose`: a pair may be equal to the one before it.
/// - `later-above`: the later number of a pair may be n + 1, which is taken for neutral.
/// - `from-newest`: k is counted from the newest operation.
/// - `room-47`: an output 47 bytes longer than the input is enough.
/// - `refusal-writes`: a refusal changes a byte of the output.
/// - `length-on-refusal`: a refusal answers the length 1.
/// - `tail-writes`: the byte after those written is changed.
/// - `held-neutral`: a neutral later operation holds too.
/// - `k-zero`: k = 0 is taken for 1.
/// - `order-123`: 123 is asked when the operations have been read, before what follows them.
/// - `pairs-112`: 0x48 is refused with 112.
/// - `cut-first`: pairs are held to their rules, 122, before the body's end is, 105.
/// - `input-written`: a byte of the input is written and written back.
pub const FAULTS: [&str; 19] = [
    "seal-kept",
    "one-doubling-few",
    "class-removed",
    "held-unasked",
    "pair-swapped",
    "pairs-dropped",
    "ascending-loose",
    "later-above",
    "from-newest",
    "room-47",
    "refusal-writes",
    "length-on-refusal",
    "tail-writes",
    "held-neutral",
    "k-zero",
    "order-123",
    "pairs-112",
    "cut-first",
    "input-written",
];

/// Does k lie outside 1 to n?
fn outside(k: u64, n: u16) -> bool {
    k == 0 || k > n as u64
}

/// The pairs' rules, two of them looser where a fault asks for it.
fn rules_hold(pairs: &[Pair], n: u16) -> bool {
    let most = if fault() == "later-above" { n + 1 } else { n };
    let ascending = |next: &[Pair]| next[0] < next[1] || fault() == "ascending-loose" && next[0] == next[1];
    let of_operations = |&(later, earlier): &Pair| 1 <= earlier && earlier < later && later <= most;
    pairs.windows(2).all(ascending) && pairs.iter().all(of_operations)
}

/// Do the whole pairs of a 0x48 that is cut short break the rules?
fn broken_before_cut(rest: &[u8], n: u16) -> bool {
    let body = rest.get(3..).unwrap_or_default();
    let number = |bytes: &[u8]| u16::from_be_bytes([bytes[0], bytes[1]]);
    let pairs: Vec<Pair> = body.chunks_exact(4).map(|pair| (number(pair), number(&pair[2..]))).collect();
    !rules_hold(&pairs, n)
}

/// The archive, with one of the faults of reading it.
fn read(input: &[u8], k: u64) -> Result<Archive, Refusal> {
    let mut reader = Reader::new(input);
    let curve = reader.curve()?;
    let drawing = reader.drawing()?.to_vec();
    let n = reader.count()?;
    let seal = reader.class(&curve)?;
    let operations = (0..n).map(|_| reader.operation(&curve)).collect::<Result<_, _>>()?;
    let rest = reader.rest();
    if fault() == "order-123" && outside(k, n) {
        return Err(123);
    }
    if fault() == "pairs-112" && rest.first() == Some(&PAIRS) {
        return Err(112);
    }
    let pairs = match reader.listed_pairs() {
        Err(105) if fault() == "cut-first" && broken_before_cut(rest, n) => return Err(122),
        listed => listed?,
    };
    if !rules_hold(&pairs, n) {
        return Err(122);
    }
    reader.end()?;
    Ok(Archive { curve, drawing, seal, operations, pairs })
}

/// Is operation k held, with one of the faults of asking so?
fn held(archive: &Archive, k: u64) -> bool {
    let operations = archive.oldest_first();
    let neutral =
        |number: u16| operations.get(number as usize - 1).unwrap_or(&Class::neutral()) == &Class::neutral();
    let holds = |&(later, earlier): &Pair| match fault() {
        "held-unasked" => false,
        "pair-swapped" => later as u64 == k && !neutral(earlier),
        "held-neutral" => earlier as u64 == k,
        _ => earlier as u64 == k && !neutral(later),
    };
    archive.pairs.iter().any(holds)
}

/// The last seal when operation k has become neutral, with one of its faults.
fn seal_without(archive: &Archive, k: usize, changed: &[Class]) -> Class {
    let (curve, before) = (&archive.curve, archive.oldest_first());
    let moved = match fault() {
        "seal-kept" => Class::neutral(),
        "one-doubling-few" => {
            let times = (before.len() - k).saturating_sub(1) as u64;
            curve.opposite(&doublings(curve, times, &before[k - 1]))
        }
        _ => {
            let [to, from] = [changed, &before].map(|list| walked_forward(curve, &Class::neutral(), list));
            curve.difference(&to, &from)
        }
    };
    curve.sum(&archive.seal, &moved)
}

/// What is written, or a refusal, with one of the faults.
fn faulty(input: &[u8], k: u64, output_length: usize) -> Result<Vec<u8>, Refusal> {
    let growth = if fault() == "room-47" { GROWTH - 1 } else { GROWTH };
    if output_length < growth || input.len() > output_length - growth {
        return Err(101);
    }
    let archive = read(input, k)?;
    let n = archive.operations.len();
    let k = if fault() == "k-zero" { k.max(1) } else { k };
    if outside(k, n as u16) {
        return Err(123);
    }
    let k = if fault() == "from-newest" { n as u64 + 1 - k } else { k };
    if held(&archive, k) {
        return Err(124);
    }
    let mut changed = archive.oldest_first();
    changed[k as usize - 1] = Class::neutral();
    let seal = seal_without(&archive, k as usize, &changed);
    let operations = changed.into_iter().rev().collect();
    let pairs = if fault() == "pairs-dropped" { vec![] } else { archive.pairs.clone() };
    let mut fields = Archive { seal, operations, pairs, ..archive }.fields();
    if fault() == "class-removed" {
        // five fields stand before the operations
        fields.remove(5 + n - k as usize);
    }
    Ok(fields.concat())
}

/// What the call answers: 0 and the length written, or a refusal and 0.
#[repr(C)]
pub struct Written {
    refusal: u32,
    length: u64,
}

/// # Safety
/// The areas are as long as said and do not overlap.
#[no_mangle]
pub unsafe extern "C" fn seal_suppress(
    input: *const u8,
    input_length: usize,
    k: u64,
    output: *mut u8,
    output_length: usize,
) -> Written {
    // 101 is asked before any byte is looked at, and an input that is too long for it may be no area at all
    let no_area = input_length > output_length;
    let bytes = if no_area { &[] } else { bytes_of(input, input_length) };
    let answer = match fault() {
        _ if no_area => Err(101),
        "" => suppress(bytes, k, output_length),
        _ => faulty(bytes, k, output_length),
    };
    if let Ok(written) = &answer {
        std::ptr::copy_nonoverlapping(written.as_ptr(), output, written.len());
    }
    match (fault(), &answer) {
        ("refusal-writes", Err(_)) if output_length > 0 => *output.add(output_length - 1) ^= 1,
        ("tail-writes", Ok(written)) if written.len() < output_length => *output.add(written.len()) ^= 1,
        ("input-written", _) if !no_area => write_input(input, input_length),
        ("over-read", _) if !no_area => read_over(input, input_length),
        _ => {}
    }
    match answer {
        Ok(written) => Written { refusal: 0, length: written.len() as u64 },
        Err(refusal) if fault() == "length-on-refusal" => Written { refusal, length: 1 },
        Err(refusal) => Written { refusal, length: 0 },
    }
}
