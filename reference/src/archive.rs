//! The archive, its walk and the walk report (document 01, 'Stored form' and 'The walk report'; document 02, request
//! 9).

use crate::calls::seal_after_undo;
use crate::class_cases::printed;
use crate::jacobian::{Class, Curve};
use crate::stored::{class_field, count_field, curve_fields, drawing_field, operation_field, pairs_field};
use crate::stored::{Pair, Reader, Refusal};

/// What an archive holds; the operations newest first. The pairs are in a field of their own, the last, unless there
/// are none.
#[derive(Clone, Debug, PartialEq, Eq)]
pub struct Archive {
    pub curve: Curve,
    pub drawing: Vec<u8>,
    pub seal: Class,
    pub operations: Vec<Class>,
    pub pairs: Vec<Pair>,
}

impl Archive {
    /// The fields, each with its head.
    pub fn fields(&self) -> Vec<Vec<u8>> {
        let count = u16::try_from(self.operations.len()).expect("the count takes two bytes");
        let mut fields = curve_fields(&self.curve).to_vec();
        fields.extend([drawing_field(&self.drawing), count_field(count), class_field(&self.seal)]);
        fields.extend(self.operations.iter().map(operation_field));
        if !self.pairs.is_empty() {
            fields.push(pairs_field(&self.pairs));
        }
        fields
    }

    pub fn bytes(&self) -> Vec<u8> {
        self.fields().concat()
    }

    pub fn read(input: &[u8]) -> Result<Archive, Refusal> {
        let mut reader = Reader::new(input);
        let curve = reader.curve()?;
        let drawing = reader.drawing()?.to_vec();
        let count = reader.count()?;
        let seal = reader.class(&curve)?;
        let operations = (0..count).map(|_| reader.operation(&curve)).collect::<Result<_, _>>()?;
        let pairs = reader.pairs(count)?;
        reader.end()?;
        Ok(Archive { curve, drawing, seal, operations, pairs })
    }

    /// The operations in the order in which they are counted.
    pub fn oldest_first(&self) -> Vec<Class> {
        self.operations.iter().rev().cloned().collect()
    }

    /// The seals, from the last one to the one before the oldest operation kept.
    pub fn walk(&self) -> Vec<Class> {
        self.walk_by(|seal, operation| seal_after_undo(&self.curve, seal, operation))
    }

    /// The same by some rule for the seal before an operation.
    fn walk_by(&self, undone: impl Fn(&Class, &Class) -> Class) -> Vec<Class> {
        let mut seals = vec![self.seal.clone()];
        for operation in &self.operations {
            seals.push(undone(&seals[seals.len() - 1], operation));
        }
        seals
    }

    /// The mark of the line after k operations are undone. An operation is the opposite of the next older one where the two
    /// sum up to nothing.
    fn letter(&self, undone: usize) -> char {
        let Some(newest) = undone.checked_sub(1) else { return '.' };
        let operation = &self.operations[newest];
        if *operation == Class::neutral() {
            return 'M';
        }
        match self.operations.get(newest + 1) {
            Some(older) if self.curve.sum(operation, older) == Class::neutral() => 'R',
            _ => '-',
        }
    }

    /// The marks of all lines.
    pub fn letters(&self) -> String {
        (0..=self.operations.len()).map(|undone| self.letter(undone)).collect()
    }

    /// The report of a walk by some rule for the seal before an operation.
    pub fn report_by(&self, undone: impl Fn(&Class, &Class) -> Class) -> String {
        let drawing = String::from_utf8(self.drawing.clone()).expect("a drawing number is ASCII");
        let blank = if drawing.is_empty() { "" } else { " " };
        let mut lines = format!("walk {}{blank}{drawing}\n", self.operations.len());
        for (undone, seal) in self.walk_by(undone).iter().enumerate() {
            lines.push_str(&format!("{undone} {} {}\n", self.letter(undone), printed(seal)));
        }
        lines
    }

    pub fn report(&self) -> String {
        self.report_by(|seal, operation| seal_after_undo(&self.curve, seal, operation))
    }
}

/// How much of standard input the report reads.
pub const REPORT_LIMIT: usize = 65_536;

/// What the program `walkreport` prints for an input.
pub fn report(input: &[u8]) -> String {
    match Archive::read(&input[..input.len().min(REPORT_LIMIT)]) {
        Ok(archive) => archive.report(),
        Err(refusal) => format!("refused {refusal}\n"),
    }
}

#[cfg(test)]
mod tests {
    use super::*;
    use crate::field::{BENCH, WIDE};
    use crate::stored::{degree_field, field};

    fn class(u: &[u64], v: &[u64]) -> Class {
        Class::new([u, &[1]].concat(), v.to_vec())
    }

    /// Document 01's example, the archive written out byte by byte.
    #[test]
    fn example_of_document_01() {
        let mut bytes = vec![0x40, 0, 1, 5, 0x41, 0, 24];
        bytes.extend([0; 24]);
        bytes.extend([0x46, 0, 2, 0x41, 0x31, 0x42, 0, 2, 0, 2]);
        bytes.extend([0x43, 0, 32]);
        bytes.extend([0; 31]);
        bytes.push(1);
        for v in [1, 0] {
            bytes.extend([0x44, 0, 16]);
            bytes.extend([0; 15]);
            bytes.push(v);
        }
        let whole = "walk 2 A1\n0 . 2:0,0:0,1\n1 R 3:0,0,0:0,0,0\n2 - 1:0:0\n";
        assert_eq!(report(&bytes), whole);
        let archive = Archive {
            curve: Curve::new(BENCH, 0, 0, 0),
            drawing: b"A1".to_vec(),
            seal: class(&[0, 0], &[1]),
            operations: vec![class(&[0], &[1]), class(&[0], &[])],
            pairs: vec![],
        };
        assert_eq!(archive.bytes(), bytes);
        assert_eq!(Archive::read(&bytes), Ok(archive));
    }

    /// Archives of this many [x, 0] over f = x^7.
    fn of_count(count: usize, drawing: &[u8]) -> Archive {
        let operations = vec![class(&[0], &[]); count];
        let (curve, seal) = (Curve::new(WIDE, 0, 0, 0), Class::neutral());
        Archive { curve, drawing: drawing.to_vec(), seal, operations, pairs: vec![] }
    }

    #[test]
    fn first_lines() {
        assert_eq!(report(&of_count(0, b"").bytes()), "walk 0\n0 . 0::\n");
        assert_eq!(report(&of_count(0, b" ").bytes()), "walk 0  \n0 . 0::\n");
        assert_eq!(report(&of_count(0, b"  ~ \"").bytes()), "walk 0   ~ \"\n0 . 0::\n");
        let longest = report(&of_count(1024, &[b'z'; 38]).bytes());
        assert!(longest.starts_with(&format!("walk 1024 {}\n", "z".repeat(38))));
        assert_eq!(longest.lines().count(), 1026);
    }

    /// Of the neutral operations the newest has one that is not neutral behind it, the next a neutral one, and the last none.
    #[test]
    fn letters() {
        let (x, x_one, neutral) = (class(&[0], &[]), class(&[0], &[1]), Class::neutral());
        let operations =
            [&neutral, &x, &x_one, &x, &x, &neutral, &neutral, &x, &neutral].map(Class::clone).to_vec();
        let archive = Archive { operations, ..of_count(0, b"") };
        assert_eq!(archive.letters(), ".MRR--MM-M");
        let views = Archive { operations: vec![neutral; 3], ..of_count(0, b"") };
        assert_eq!(views.letters(), ".MMM");
    }

    #[test]
    fn refusals() {
        let good = of_count(2, b"A 1").bytes();
        assert!(report(&good).starts_with("walk 2 A 1\n0 . "));
        let refused = |bytes: &[u8], number| assert_eq!(report(bytes), format!("refused {number}\n"));
        refused(&[], 102);
        for length in 0..good.len() {
            // the fields start at 0, 4, 31, 37, 42, 45 and 64
            let in_head = [0, 4, 31, 37, 42, 45, 64].iter().any(|start| (*start..start + 3).contains(&length));
            refused(&good[..length], if in_head { 102 } else { 105 });
        }
        refused(&[good.clone(), vec![0x44]].concat(), 112);
        let with = |at: usize, byte: u8| {
            let mut bytes = good.clone();
            bytes[at] = byte;
            bytes
        };
        for (at, byte, number) in [
            (0, 0x41, 103),
            (31, 0x42, 103),
            (2, 2, 104),
            (32, 1, 104),
            (3, 6, 106),
            (7, 0x20, 107),
            (34, 0x1f, 108),
            (36, 0x7f, 108),
            (40, 0xff, 109),
            (48, 0x20, 110),
            (63, 2, 111),
            (41, 1, 112),
            (41, 3, 102),
        ] {
            refused(&with(at, byte), number);
        }
        let start = [degree_field(5), field(0x41, &[0; 24])].concat();
        for length in [39, 255, 65_535] {
            refused(&[&start, &drawing_field(&vec![b'a'; length])[..]].concat(), 104);
        }
        refused(&[&start, &drawing_field(&[b'a'; 38])[..]].concat(), 102);
        refused(&[&start, &drawing_field(&[]), &count_field(1025)[..]].concat(), 109);
        refused(&[&start, &drawing_field(&[]), &count_field(1024)[..]].concat(), 102);
    }

    /// Pairs are read back from the bytes that store them, and the report is that of the archive without them.
    #[test]
    fn pairs() {
        let without = of_count(3, b"A 1");
        let archive = Archive { pairs: vec![(2, 1), (3, 1), (3, 2)], ..without.clone() };
        let bytes = archive.bytes();
        assert_eq!(bytes, [without.bytes(), pairs_field(&archive.pairs)].concat());
        assert_eq!(Archive::read(&bytes), Ok(archive));
        assert_eq!(report(&bytes), report(&without.bytes()));
        for length in without.bytes().len() + 1..bytes.len() {
            let number = if length < without.bytes().len() + 3 { 102 } else { 105 };
            assert_eq!(report(&bytes[..length]), format!("refused {number}\n"));
        }
        for (more, number) in [
            (&[0x48][..], 112),
            (&[0], 112),
            (&[0x48, 0, 4, 0, 2, 0, 1], 112),
            (&[0x48, 0, 4, 0, 9, 0, 9], 112),
            (&[0x48, 0, 0], 112),
        ] {
            assert_eq!(report(&[&bytes, more].concat()), format!("refused {number}\n"), "after the field");
        }
        for (field, number) in [
            (&[0x48, 0, 0][..], 104),
            (&[0x48, 0, 0, 0x48], 104),
            (&[0x48, 0, 4, 0, 4, 0, 1], 122),
            (&[0x48, 0, 4, 0, 4, 0, 1, 0x48], 122),
            (&[0x48, 0, 4, 0, 4, 0], 105),
            (&[0x47, 0, 4, 0, 4, 0, 1], 112),
        ] {
            assert_eq!(report(&[&without.bytes(), field].concat()), format!("refused {number}\n"));
        }
    }

    /// The longest archive is shorter than what is read; more is refused by the ordinary checks.
    #[test]
    fn long_inputs() {
        let three = class(&[0, 0, 0], &[1]);
        let pairs = (0..2048).map(|i| (100 + i / 99, 1 + i % 99)).collect();
        let operations = vec![three.clone(); 1024];
        let archive = Archive { seal: three, operations, pairs, ..of_count(0, &[b'a'; 38]) };
        let bytes = archive.bytes();
        assert_eq!(bytes.len(), 4 + 27 + 41 + 5 + 51 + 1024 * 51 + 3 + 8192);
        assert!(bytes.len() < REPORT_LIMIT);
        for length in [bytes.len() + 1, 65_535, 65_536, 65_537, 100_000] {
            let mut longer = bytes.clone();
            longer.resize(length, 0x44);
            assert_eq!(report(&longer), "refused 112\n");
        }
        assert_eq!(report(&[0; 70_000]), "refused 103\n");
    }
}
