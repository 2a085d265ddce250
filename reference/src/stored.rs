//! The stored form (document 01, 'Stored form' and 'In checking order'; document 02, requests 8 and 9): a writer, and a
//! reader that refuses.
//!
//! A field is a one-byte tag, a two-byte length and a body, high byte first; an element takes eight bytes. The reader
//! takes the fields in their order and does with each all the checks from 102 to 111 before it begins the next.

use crate::field::Field;
use crate::jacobian::{Class, Curve};

pub const DEGREE: u8 = 0x40;
pub const CURVE: u8 = 0x41;
pub const COUNT: u8 = 0x42;
pub const CLASS: u8 = 0x43;
pub const OPERATION: u8 = 0x44;
pub const RELEASED: u8 = 0x45;
pub const DRAWING: u8 = 0x46;
pub const PAIRS: u8 = 0x48;

/// The most operations that a register counts and an archive keeps.
pub const COUNT_LIMIT: u16 = 1024;

/// The longest drawing number (document 02, request 1).
pub const DRAWING_LIMIT: usize = 38;

/// The most pairs of an archive (document 02, request 9).
pub const PAIRS_LIMIT: usize = 2048;

/// The numbers of a later operation and of an earlier one, counted from the oldest, which is 1.
pub type Pair = (u16, u16);

/// A refusal's number, 101 to 124.
pub type Refusal = u32;

/// May the body of a field with this tag have this length?
fn allowed(tag: u8, length: usize) -> bool {
    match tag {
        DEGREE => length == 1,
        CURVE => length == 24,
        DRAWING => length <= DRAWING_LIMIT,
        COUNT | RELEASED => length == 2,
        CLASS | OPERATION => [0, 16, 32, 48].contains(&length),
        PAIRS => length > 0 && length % 4 == 0 && length <= 4 * PAIRS_LIMIT,
        _ => panic!("no tag {tag:#x}"),
    }
}

/// A field with any tag and body.
pub fn field(tag: u8, body: &[u8]) -> Vec<u8> {
    let length = u16::try_from(body.len()).expect("the body's length takes two bytes");
    [&[tag], &length.to_be_bytes()[..], body].concat()
}

fn elements(numbers: &[u64]) -> Vec<u8> {
    numbers.iter().flat_map(|number| number.to_be_bytes()).collect()
}

pub fn degree_field(degree: u8) -> Vec<u8> {
    field(DEGREE, &[degree])
}

pub fn curve_field(f3: u64, f1: u64, f0: u64) -> Vec<u8> {
    field(CURVE, &elements(&[f3, f1, f0]))
}

pub fn drawing_field(number: &[u8]) -> Vec<u8> {
    field(DRAWING, number)
}

pub fn count_field(count: u16) -> Vec<u8> {
    field(COUNT, &count.to_be_bytes())
}

/// The count at the last release (document 02, request 8).
pub fn released_field(released: u16) -> Vec<u8> {
    field(RELEASED, &released.to_be_bytes())
}

/// The optional last field of an archive (document 02, request 9).
pub fn pairs_field(pairs: &[Pair]) -> Vec<u8> {
    let numbers = pairs.iter().flat_map(|&(later, earlier)| [later, earlier]);
    field(PAIRS, &numbers.flat_map(u16::to_be_bytes).collect::<Vec<u8>>())
}

/// A register without its curve, as commit, undo and release read and write it.
pub fn register_fields(count: u16, released: u16, seal: &Class) -> [Vec<u8>; 3] {
    [count_field(count), released_field(released), class_field(seal)]
}

/// A class under a tag: u below its leading term, highest power first, then v likewise.
fn class_under(tag: u8, class: &Class) -> Vec<u8> {
    let downward = || (0..class.degree()).rev();
    let u = downward().map(|i| class.u.coefficient(i));
    let v = downward().map(|i| class.v.coefficient(i));
    field(tag, &elements(&u.chain(v).collect::<Vec<u64>>()))
}

pub fn class_field(class: &Class) -> Vec<u8> {
    class_under(CLASS, class)
}

pub fn operation_field(class: &Class) -> Vec<u8> {
    class_under(OPERATION, class)
}

/// The degree and the curve, with which every record begins.
pub fn curve_fields(curve: &Curve) -> [Vec<u8>; 2] {
    let [f3, f1, f0] = [3, 1, 0].map(|i| curve.f.coefficient(i));
    [degree_field(curve.field.degree as u8), curve_field(f3, f1, f0)]
}

/// What is left of an input.
pub struct Reader<'a> {
    rest: &'a [u8],
}

impl<'a> Reader<'a> {
    pub fn new(input: &'a [u8]) -> Reader<'a> {
        Reader { rest: input }
    }

    /// The body of the next field, which is due to have this tag: 102, 103, 104, 105.
    fn body(&mut self, due: u8) -> Result<&'a [u8], Refusal> {
        let &[tag, high, low, ref rest @ ..] = self.rest else { return Err(102) };
        let length = u16::from_be_bytes([high, low]) as usize;
        if tag != due {
            return Err(103);
        }
        if !allowed(tag, length) {
            return Err(104);
        }
        if rest.len() < length {
            return Err(105);
        }
        let (body, rest) = rest.split_at(length);
        self.rest = rest;
        Ok(body)
    }

    /// The elements in a body; the refusal given if one is none.
    fn numbers(field: Field, body: &[u8], refusal: Refusal) -> Result<Vec<u64>, Refusal> {
        let number = |bytes: &[u8]| bytes.iter().fold(0, |number, &byte| number << 8 | byte as u64);
        let numbers: Vec<u64> = body.chunks(8).map(number).collect();
        if numbers.iter().all(|&number| field.contains(number)) {
            Ok(numbers)
        } else {
            Err(refusal)
        }
    }

    /// The degree's field, 106, and the curve's, 107.
    pub fn curve(&mut self) -> Result<Curve, Refusal> {
        let field = Field::of_degree(self.body(DEGREE)?[0]).ok_or(106u32)?;
        let coefficients = Reader::numbers(field, self.body(CURVE)?, 107)?;
        Ok(Curve::new(field, coefficients[0], coefficients[1], coefficients[2]))
    }

    /// 108.
    pub fn drawing(&mut self) -> Result<&'a [u8], Refusal> {
        let number = self.body(DRAWING)?;
        if number.iter().all(|byte| (0x20..=0x7e).contains(byte)) {
            Ok(number)
        } else {
            Err(108)
        }
    }

    /// A number of two bytes up to the most that is allowed; above it the refusal given.
    fn up_to(&mut self, tag: u8, most: u16, refusal: Refusal) -> Result<u16, Refusal> {
        let body = self.body(tag)?;
        let number = u16::from_be_bytes([body[0], body[1]]);
        if number <= most {
            Ok(number)
        } else {
            Err(refusal)
        }
    }

    /// 109.
    pub fn count(&mut self) -> Result<u16, Refusal> {
        self.up_to(COUNT, COUNT_LIMIT, 109)
    }

    /// 120: the released step is at most the count that was read before it.
    pub fn released(&mut self, count: u16) -> Result<u16, Refusal> {
        self.up_to(RELEASED, count, 120)
    }

    /// 110, 111.
    fn class_under(&mut self, tag: u8, curve: &Curve) -> Result<Class, Refusal> {
        let numbers = Reader::numbers(curve.field, self.body(tag)?, 110)?;
        let (high_u, high_v) = numbers.split_at(numbers.len() / 2);
        let rising = |row: &[u64]| row.iter().rev().copied().collect::<Vec<u64>>();
        let class = Class::new([rising(high_u), vec![1]].concat(), rising(high_v));
        if curve.is_member(&class) {
            Ok(class)
        } else {
            Err(111)
        }
    }

    pub fn class(&mut self, curve: &Curve) -> Result<Class, Refusal> {
        self.class_under(CLASS, curve)
    }

    pub fn operation(&mut self, curve: &Curve) -> Result<Class, Refusal> {
        self.class_under(OPERATION, curve)
    }

    /// The pairs of the optional last field, whatever their numbers; none where nothing is left, and 112 where it is
    /// another tag.
    pub fn listed_pairs(&mut self) -> Result<Vec<Pair>, Refusal> {
        if self.rest.first() != Some(&PAIRS) {
            return self.end().map(|()| vec![]);
        }
        let pair =
            |bytes: &[u8]| (u16::from_be_bytes([bytes[0], bytes[1]]), u16::from_be_bytes([bytes[2], bytes[3]]));
        Ok(self.body(PAIRS)?.chunks(4).map(pair).collect())
    }

    /// 122: the pairs ascend, and each names an operation, of as many as the count says, and an earlier one.
    pub fn pairs(&mut self, count: u16) -> Result<Vec<Pair>, Refusal> {
        let pairs = self.listed_pairs()?;
        let ascending = pairs.windows(2).all(|next| next[0] < next[1]);
        let of_operations = |&(later, earlier): &Pair| 1 <= earlier && earlier < later && later <= count;
        if ascending && pairs.iter().all(of_operations) {
            Ok(pairs)
        } else {
            Err(122)
        }
    }

    /// What has not been read.
    pub fn rest(&self) -> &'a [u8] {
        self.rest
    }

    /// 112.
    pub fn end(&self) -> Result<(), Refusal> {
        if self.rest.is_empty() {
            Ok(())
        } else {
            Err(112)
        }
    }
}

#[cfg(test)]
mod tests {
    use super::*;
    use crate::field::{BENCH, WIDE};

    fn read_class(body: &[u8], curve: &Curve) -> Result<Class, Refusal> {
        Reader::new(&field(CLASS, body)).class(curve)
    }

    #[test]
    fn bytes_by_hand() {
        assert_eq!(degree_field(61), [0x40, 0, 1, 61]);
        assert_eq!(count_field(0x0102), [0x42, 0, 2, 1, 2]);
        assert_eq!(released_field(0x0102), [0x45, 0, 2, 1, 2]);
        let fields = [0x42, 0, 2, 1, 4, 0x45, 0, 2, 0, 7, 0x43, 0, 0];
        assert_eq!(register_fields(0x0104, 7, &Class::neutral()).concat(), fields);
        assert_eq!(drawing_field(b"A1"), [0x46, 0, 2, 0x41, 0x31]);
        assert_eq!(class_field(&Class::neutral()), [0x43, 0, 0]);
        let curve = curve_field(0x0102030405060708, 9, 10);
        assert_eq!(curve[..12], [0x41, 0, 24, 1, 2, 3, 4, 5, 6, 7, 8, 0]);
        assert_eq!((curve[18], curve[26], curve.len()), (9, 10, 27));
        // [x^2 + 3 x + 4, 5 x + 6]
        let class = operation_field(&Class::new(vec![4, 3, 1], vec![6, 5]));
        assert_eq!(class[..3], [0x44, 0, 32]);
        assert_eq!([10, 18, 26, 34].map(|i| class[i]), [3, 4, 5, 6]);
        assert_eq!(class.len(), 35);
    }

    /// Every class of a bench curve is read back from the bytes that store it.
    #[test]
    fn form_and_class() {
        let curve = Curve::new(BENCH, 5, 19, 0);
        for class in crate::bench_classes::all_classes(&curve) {
            let stored = class_field(&class);
            let mut reader = Reader::new(&stored);
            assert_eq!(reader.class(&curve), Ok(class));
            assert_eq!(reader.end(), Ok(()));
        }
    }

    #[test]
    fn heads() {
        for length in 0..3 {
            assert_eq!(Reader::new(&[0xff; 2][..length.min(2)]).count(), Err(102));
            assert_eq!(Reader::new(&count_field(1)[..length]).count(), Err(102));
        }
        assert_eq!(Reader::new(&[0x41, 0, 1]).count(), Err(103), "the tag before the length");
        assert_eq!(Reader::new(&[0x42, 0, 1]).count(), Err(104), "the length before the body");
        assert_eq!(Reader::new(&[0x42, 0, 3, 0, 0, 0]).count(), Err(104));
        assert_eq!(Reader::new(&[0x42, 1, 2, 0, 0]).count(), Err(104));
        assert_eq!(Reader::new(&[0x42, 0, 2]).count(), Err(105));
        assert_eq!(Reader::new(&[0x42, 0, 2, 0xff]).count(), Err(105), "the body's end before its content");
        assert_eq!(Reader::new(&[0x42, 0, 2, 0, 7]).count(), Ok(7));
        assert_eq!(Reader::new(&[0x42, 0, 2, 0, 7]).released(7), Err(103), "a count is no released step");
        assert_eq!(Reader::new(&[0x45, 0, 4, 0, 0, 0, 7]).released(7), Err(104));
        assert_eq!(Reader::new(&[0x45, 0, 2, 0xff]).released(7), Err(105));
        let curve = Curve::new(BENCH, 0, 0, 0);
        for length in 0..50 {
            let expected = if [0, 16, 32, 48].contains(&length) { Err(105) } else { Err(104) };
            let cut = &field(CLASS, &vec![0; length])[..3 + length.saturating_sub(1)];
            if length > 0 {
                assert_eq!(Reader::new(cut).class(&curve), expected);
            }
        }
    }

    #[test]
    fn bodies() {
        for degree in 0..=255 {
            let bytes = [degree_field(degree), curve_field(0, 0, 0)].concat();
            let expected = if [5, 61].contains(&degree) { None } else { Some(106) };
            assert_eq!(Reader::new(&bytes).curve().err(), expected);
        }
        for (field, least) in [(BENCH, 32), (WIDE, 1 << 61)] {
            let read = |f3, f1, f0| {
                let bytes = [degree_field(field.degree as u8), curve_field(f3, f1, f0)].concat();
                Reader::new(&bytes).curve()
            };
            assert_eq!(read(least - 1, least - 1, least - 1).unwrap().f.coefficient(3), least - 1);
            for above in [least, 1 << 63, u64::MAX] {
                assert_eq!(read(above, 0, 0), Err(107));
                assert_eq!(read(0, above, 0), Err(107));
                assert_eq!(read(0, 0, above), Err(107));
            }
        }
        for byte in 0..=255 {
            let bytes = drawing_field(&[b'a', byte]);
            let expected = if (0x20..0x7f).contains(&byte) { Ok(&bytes[3..]) } else { Err(108) };
            assert_eq!(Reader::new(&bytes).drawing(), expected);
        }
        assert_eq!(Reader::new(&count_field(1024)).count(), Ok(1024));
        assert_eq!(Reader::new(&count_field(1025)).count(), Err(109));
        assert_eq!(Reader::new(&count_field(65535)).count(), Err(109));
        for count in [0, 1, 255, 256, 1023, 1024] {
            for released in (0..=1025).chain([32768, 65535]) {
                let expected = if released <= count { Ok(released) } else { Err(120) };
                assert_eq!(Reader::new(&released_field(released)).released(count), expected);
            }
        }
    }

    /// Up to 38 bytes pass; more are 104, also where the body is cut short or has bytes that are 108.
    #[test]
    fn drawing_lengths() {
        for length in 0..=38 {
            let bytes = drawing_field(&vec![b'~'; length]);
            assert_eq!(Reader::new(&bytes).drawing(), Ok(&bytes[3..]));
            assert_eq!(Reader::new(&bytes[..2 + length]).drawing(), Err(if length == 0 { 102 } else { 105 }));
        }
        for length in (39..600).chain([32_768, 65_535]) {
            for byte in [b'~', 0x7f] {
                let bytes = drawing_field(&vec![byte; length]);
                assert_eq!(Reader::new(&bytes).drawing(), Err(104));
                assert_eq!(Reader::new(&bytes[..2 + length]).drawing(), Err(104));
                assert_eq!(Reader::new(&bytes[..3]).drawing(), Err(104));
            }
        }
    }

    /// The pairs that are read from a field, and what is left after it.
    fn read_pairs(bytes: &[u8], count: u16) -> (Result<Vec<Pair>, Refusal>, usize) {
        let mut reader = Reader::new(bytes);
        (reader.pairs(count), reader.rest().len())
    }

    #[test]
    fn heads_of_pairs() {
        assert_eq!(pairs_field(&[(0x0102, 0x0003), (0x0104, 1)]), [0x48, 0, 8, 1, 2, 0, 3, 1, 4, 0, 1]);
        assert_eq!(read_pairs(&[], 2), (Ok(vec![]), 0), "the field may be left out");
        for tag in (0..=255).filter(|&tag| tag != 0x48) {
            assert_eq!(read_pairs(&[tag], 2).0, Err(112), "another byte, even alone");
            assert_eq!(read_pairs(&[tag, 0, 4, 0, 2, 0, 1], 2).0, Err(112));
        }
        for head in [&[0x48][..], &[0x48, 0], &[0x48, 0xff]] {
            assert_eq!(read_pairs(head, 2).0, Err(102));
        }
        for length in (0..9000).chain([32_768, 65_532, 65_535]) {
            let allowed = length != 0 && length % 4 == 0 && length <= 8192;
            let expected = Err(if allowed { 105 } else { 104 });
            let [high, low] = (length as u16).to_be_bytes();
            assert_eq!(read_pairs(&[0x48, high, low], 1024).0, expected);
            assert_eq!(read_pairs(&[vec![0x48, high, low], vec![0; 3]].concat(), 1024).0, expected);
        }
        let whole = pairs_field(&[(2, 1), (3, 1)]);
        for length in 3..whole.len() {
            assert_eq!(read_pairs(&whole[..length], 3).0, Err(105));
            assert_eq!(read_pairs(&whole[..length], 0).0, Err(105), "the body's end before its pairs");
        }
        assert_eq!(read_pairs(&[whole, vec![0x48]].concat(), 3), (Ok(vec![(2, 1), (3, 1)]), 1));
    }

    #[test]
    fn pairs_by_their_rules() {
        let read = |pairs: &[Pair], count| read_pairs(&pairs_field(pairs), count).0;
        for count in [0, 1, 2, 3, 5] {
            for later in 0..8 {
                for earlier in 0..8 {
                    let good = earlier > 0 && later > earlier && count >= later;
                    let expected = if good { Ok(vec![(later, earlier)]) } else { Err(122) };
                    assert_eq!(read(&[(later, earlier)], count), expected);
                }
            }
        }
        for pairs in [[(3, 1), (3, 2)], [(2, 1), (3, 1)], [(3, 2), (4, 1)]] {
            assert_eq!(read(&pairs, 4), Ok(pairs.to_vec()));
            assert_eq!(read(&[pairs[1], pairs[0]], 4), Err(122), "descending");
            assert_eq!(read(&[pairs[0], pairs[0]], 4), Err(122), "equal");
            assert_eq!(read(&[pairs[0], pairs[1], pairs[0]], 4), Err(122));
        }
        // 256 below 255 by the lower byte alone
        assert!(read(&[(255, 1), (256, 1)], 256).is_ok());
        assert!(read(&[(257, 255), (257, 256)], 257).is_ok());
        assert_eq!(read(&[(257, 256), (257, 255)], 257), Err(122));
        let most: Vec<Pair> = (0..2048).map(|i| (100 + i / 99, 1 + i % 99)).collect();
        assert_eq!(read(&most, 1024), Ok(most.clone()));
        assert_eq!(read(&[&[(2, 1)], &most[..]].concat(), 1024), Err(104));
        assert_eq!(read(&[(1024, 1023)], 1024), Ok(vec![(1024, 1023)]));
        assert_eq!(read(&[(1024, 1023)], 1023), Err(122));
    }

    #[test]
    fn classes() {
        let curve = Curve::new(BENCH, 0, 0, 0);
        assert_eq!(read_class(&[], &curve), Ok(Class::neutral()));
        // 110 at each of six places, before 111; the largest element there is no refusal by 110
        for i in 0..6 {
            let mut numbers = [0u64; 6];
            numbers[i] = 31;
            assert_ne!(read_class(&elements(&numbers), &curve), Err(110));
            for above in [32, 1 << 61, u64::MAX] {
                numbers[i] = above;
                assert_eq!(read_class(&elements(&numbers), &curve), Err(110));
            }
        }
        // [x, 0] is on A, [x + 1, 0] is not, [x, 1] is, [x, 2] is not
        assert!(read_class(&elements(&[0, 0]), &curve).is_ok());
        assert_eq!(read_class(&elements(&[1, 0]), &curve), Err(111));
        assert!(read_class(&elements(&[0, 1]), &curve).is_ok());
        assert_eq!(read_class(&elements(&[0, 2]), &curve), Err(111));
        // example 12: [x, 0] is not on B
        assert_eq!(read_class(&elements(&[0, 0]), &Curve::new(BENCH, 0, 0, 1)), Err(111));
    }
}
