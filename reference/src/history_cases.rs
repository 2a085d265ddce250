//! The cases of the program `history_trial`: commits, undos and releases on one register (document 01, 'The register';
//! document 02, request 8), in the bytes that it reads, and the lines that are expected of it.
//!
//! A record is 154 bytes: the call, the degree d, f3, f1 and f0, the count, the seal, the released step and an
//! operation's class. A class is its degree, u0, u1, u2, v0, v1 and v2. All numbers but d take eight bytes, high byte
//! first. A start sets the register and has no line; a commit, an undo and a release are made on the register that the
//! call before handed back, a release without the class; a show prints all that the register holds.
//!
//! - `edges`: document 01's walk, every refusal at its edges and in its order, registers that fail a check; releases.
//! - `lists`: lists of calls drawn at random, each taken back call by call, as far as its last release.
//! - `displacement`: lists of commits, each with one operation changed.
//! - `ground`: a curve with what the calls of lists are drawn from.

pub mod displacement;
pub mod edges;
mod ground;
pub mod lists;

use crate::class_cases::edges::NONSENSE;
use crate::class_cases::{ClassValues, CurveValues};
use crate::halving::is_half;
use crate::jacobian::{Class, Curve};
use crate::stored::COUNT_LIMIT;

pub const START: u8 = 0;
pub const COMMIT: u8 = 1;
pub const UNDO: u8 = 2;
pub const SHOW: u8 = 3;
pub const RELEASE: u8 = 4;

/// The length of a record.
const RECORD: usize = 154;

/// The most operations that a register counts.
pub const LIMIT: u64 = COUNT_LIMIT as u64;

/// A register as a caller hands it over; it need not pass the checks.
#[derive(Clone, Copy, Debug, PartialEq, Eq)]
pub struct RegisterValues {
    pub curve: CurveValues,
    pub count: u64,
    pub seal: ClassValues,
    pub released: u64,
}

/// What stands in a record where the call does not look.
const UNREAD: RegisterValues = RegisterValues {
    curve: CurveValues { degree: u8::MAX, f3: u64::MAX, f1: u64::MAX, f0: u64::MAX },
    count: u64::MAX,
    seal: NONSENSE,
    released: u64::MAX,
};

impl RegisterValues {
    /// The curve and the seal, or the refusal: the curve's, 109 for a count above 1,024, 120 for a released step above
    /// the count, the seal's.
    fn checked(&self) -> Result<(Curve, Class), u32> {
        let curve = self.curve.curve()?;
        if self.count > LIMIT {
            return Err(109);
        }
        if self.released > self.count {
            return Err(120);
        }
        let seal = self.seal.class(&curve)?;
        Ok((curve, seal))
    }

    fn moved(&self, count: u64, seal: &Class) -> RegisterValues {
        RegisterValues { count, seal: seal.into(), ..*self }
    }

    /// Twice the seal plus the class, and one operation more; 114 at count 1,024, after all other checks.
    fn commit(&self, class: ClassValues) -> Result<RegisterValues, u32> {
        let (curve, seal) = self.checked()?;
        let operation = class.class(&curve)?;
        if self.count == LIMIT {
            return Err(114);
        }
        Ok(self.moved(self.count + 1, &curve.sum(&curve.double(&seal), &operation)))
    }

    /// The half of the seal less the class, and one operation fewer; 113 at count 0, after all other checks, then 121
    /// at the released step. The half is found by the function given, and held to its definition.
    fn undo(&self, class: ClassValues, half: impl FnOnce(&Class) -> Class) -> Result<RegisterValues, u32> {
        let (curve, seal) = self.checked()?;
        let operation = class.class(&curve)?;
        if self.count == 0 {
            return Err(113);
        }
        if self.count == self.released {
            return Err(121);
        }
        let difference = curve.difference(&seal, &operation);
        let next = half(&difference);
        assert!(is_half(&curve, &next, &difference));
        Ok(self.moved(self.count - 1, &next))
    }

    /// The count as the released step, and all else as it was; refused where the register is.
    fn release(&self) -> Result<RegisterValues, u32> {
        self.checked()?;
        Ok(RegisterValues { released: self.count, ..*self })
    }

    /// Is an undo refused by the count, whatever the class?
    fn is_undo_barred(&self) -> bool {
        self.count == 0 || self.count == self.released
    }

    /// The line of an accepted call that hands back this register.
    fn line(&self) -> String {
        format!("{} {} {}", self.count, self.released, self.seal.printed(self.seal.degree as usize))
    }

    /// All that the register holds.
    fn shown(&self) -> String {
        let CurveValues { degree, f3, f1, f0 } = self.curve;
        format!("{degree} {f3:x},{f1:x},{f0:x} {} {} {}", self.count, self.released, self.seal.printed(3))
    }
}

/// An accepted call: what it was, its class, and the register just before it.
#[derive(Clone, Copy, Debug)]
struct Accepted {
    call: u8,
    class: ClassValues,
    before: RegisterValues,
}

/// Calls on one register after another: what the program is given and what is expected for that.
pub struct Trial {
    pub input: Vec<u8>,
    pub output: String,
    register: RegisterValues,
    /// The accepted calls since the start, or since the last release that was accepted, that are not taken back, oldest
    /// first.
    accepted: Vec<Accepted>,
}

impl Trial {
    pub fn new() -> Trial {
        Trial { input: vec![], output: String::new(), register: UNREAD, accepted: vec![] }
    }

    fn record(&mut self, call: u8, register: RegisterValues, class: ClassValues) {
        self.input.push(call);
        self.input.extend(register.curve.bytes());
        self.input.extend(register.count.to_be_bytes());
        self.input.extend(register.seal.bytes());
        self.input.extend(register.released.to_be_bytes());
        self.input.extend(class.bytes());
        debug_assert_eq!(self.input.len() % RECORD, 0);
    }

    fn expect_line(&mut self, line: &str) {
        self.output.push_str(line);
        self.output.push('\n');
    }

    pub fn start(&mut self, register: RegisterValues) {
        self.record(START, register, NONSENSE);
        self.register = register;
        self.accepted.clear();
    }

    pub fn show(&mut self) {
        self.record(SHOW, UNREAD, NONSENSE);
        self.expect_line(&self.register.shown());
    }

    /// A call with its answer. The register that follows is the next call's; on a refusal that is the same one.
    fn answered(&mut self, call: u8, class: ClassValues, answer: Result<RegisterValues, u32>) {
        self.record(call, UNREAD, class);
        match answer {
            Ok(next) => {
                self.accepted.push(Accepted { call, class, before: self.register });
                self.register = next;
                self.expect_line(&next.line());
            }
            Err(number) => self.expect_line(&format!("refused {number}")),
        }
    }

    pub fn commit(&mut self, class: ClassValues) {
        self.answered(COMMIT, class, self.register.commit(class));
    }

    pub fn undo(&mut self, class: ClassValues, half: impl FnOnce(&Class) -> Class) {
        self.answered(UNDO, class, self.register.undo(class, half));
    }

    /// A release. What was accepted before it can no longer be taken back.
    pub fn release(&mut self) {
        let answer = self.register.release();
        self.answered(RELEASE, NONSENSE, answer);
        if answer.is_ok() {
            self.accepted.clear();
        }
    }

    /// A call that must be refused; a release has no class.
    pub fn refused(&mut self, call: u8, class: ClassValues) {
        let lines = self.output.len();
        match call {
            COMMIT => self.commit(class),
            UNDO => self.undo(class, |_| panic!("{class:?} is not refused")),
            _ => self.release(),
        }
        assert!(self.output[lines..].starts_with("refused "));
    }

    /// Takes back the newest accepted call with the same class, a commit by an undo and an undo by a commit. The answer
    /// expected is the register just before that call, which was noted then: nothing is computed. False where there is
    /// none, after the last release.
    pub fn take_back(&mut self) -> bool {
        let Some(Accepted { call, class, before }) = self.accepted.pop() else { return false };
        self.record(if call == COMMIT { UNDO } else { COMMIT }, UNREAD, class);
        self.register = before;
        self.expect_line(&before.line());
        true
    }

    /// Takes back every accepted call after the last release, newest first, and shows what there was before the first.
    pub fn take_all_back(&mut self) {
        self.show();
        while self.take_back() {}
        self.show();
    }
}

impl Default for Trial {
    fn default() -> Trial {
        Trial::new()
    }
}

/// The stored cases: the edges, some lists, a byte that names no call, and a record that is cut short.
pub fn stored() -> Trial {
    let mut trial = Trial::new();
    edges::run(&mut trial);
    lists::stored(&mut trial);
    for call in [5, 255] {
        trial.record(call, UNREAD, NONSENSE);
        trial.expect_line("no such call");
    }
    trial.show();
    trial.input.extend([0, 5, 0]);
    trial.expect_line("cut short");
    trial
}

#[cfg(test)]
mod tests;
