//! Mutations: of the fields of a record, then of its bytes.

use super::pool::Pool;
use crate::random::Random;
use crate::stored::{class_field, CLASS, COUNT, CURVE, DEGREE, OPERATION, RELEASED};

/// Numbers at the edges of the pool's field, or an element.
fn number(random: &mut Random, pool: &Pool) -> u64 {
    let field = pool.curve.field;
    let least = 1 << field.degree;
    match random.below(3) {
        0 => *random.pick(&[0, 1, 2, least - 1]),
        1 => *random.pick(&[least, least + 1, 32, 1 << 61, 1 << 62, 1 << 63, u64::MAX]),
        _ => random.element(field),
    }
}

/// A field whose body is replaced, its length with it.
fn with_body(part: &[u8], body: &[u8]) -> Vec<u8> {
    [&part[..1], &(body.len() as u16).to_be_bytes(), body].concat()
}

/// One field with other content, as its tag asks.
fn other_content(random: &mut Random, part: &[u8], pool: &Pool) -> Vec<u8> {
    let mut part = part.to_vec();
    match part.first() {
        Some(&DEGREE) => {
            let degree = *random.pick(&[0, 4, 5, 6, 60, 61, 62, 63, 64, 255]);
            with_body(&part, &[degree])
        }
        Some(&COUNT | &RELEASED) => {
            let count: u16 = *random.pick(&[0, 1, 2, 1023, 1024, 1025, 2048, 32768, 65535]);
            with_body(&part, &count.to_be_bytes())
        }
        Some(&CURVE | &CLASS | &OPERATION) if part.len() >= 11 => {
            let at = 3 + 8 * random.below((part.len() - 3) / 8);
            part[at..at + 8].copy_from_slice(&number(random, pool).to_be_bytes());
            part
        }
        Some(&CLASS | &OPERATION) => {
            let another = random.pick(&pool.classes);
            with_body(&part, &class_field(another)[3..])
        }
        _ if part.len() > 3 => {
            let at = 3 + random.below(part.len() - 3);
            part[at] = *random.pick(&[0, 0x1f, 0x20, 0x7e, 0x7f, 0x80, 0xff]);
            part
        }
        _ => part,
    }
}

/// One change to the fields.
fn change_fields(random: &mut Random, fields: &mut Vec<Vec<u8>>, pool: &Pool) {
    if fields.is_empty() {
        return;
    }
    let at = random.below(fields.len());
    match random.below(12) {
        0 => {
            fields.remove(at);
        }
        1 => fields.insert(at, fields[at].clone()),
        2 => {
            let next = (at + 1) % fields.len();
            fields.swap(at, next);
        }
        3 => fields[at][0] = *random.pick(&[0, 0x40, 0x41, 0x42, 0x43, 0x44, 0x45, 0x46, 0x47, 0x48, 0xff]),
        4 => {
            let length: u16 = *random
                .pick(&[0, 1, 2, 8, 15, 16, 17, 24, 25, 31, 32, 33, 38, 39, 47, 48, 49, 64, 255, 256, 65535]);
            fields[at][1..3].copy_from_slice(&length.to_be_bytes());
        }
        5 => {
            let length = *random.pick(&[0, 1, 2, 3, 16, 23, 24, 25, 32, 38, 39, 48, 56, 64]);
            let mut body = fields[at][3..].to_vec();
            body.resize(length, 0);
            fields[at] = with_body(&fields[at], &body);
        }
        _ => fields[at] = other_content(random, &fields[at], pool),
    }
}

/// One change to the bytes.
fn change_bytes(random: &mut Random, bytes: &mut Vec<u8>) {
    let at = random.below(bytes.len() + 1);
    let some = |random: &mut Random, most: usize| -> Vec<u8> {
        (0..random.below(most + 1)).map(|_| random.number() as u8).collect()
    };
    match random.below(8) {
        0 | 1 if at < bytes.len() => bytes[at] ^= 1 << random.below(8),
        2 if at < bytes.len() => bytes[at] = random.number() as u8,
        3 => bytes.truncate(at),
        4 => bytes.extend(some(random, 3)),
        5 => bytes.extend(some(random, 60)),
        6 => {
            let inserted = some(random, 9);
            bytes.splice(at..at, inserted);
        }
        7 if random.below(8) == 0 => *bytes = some(random, 200),
        _ => {
            let end = (at + random.below(9)).min(bytes.len());
            bytes.drain(at..end);
        }
    }
}

/// The bytes of a record after none to three changes.
pub fn mutated(random: &mut Random, mut fields: Vec<Vec<u8>>, pool: &Pool) -> Vec<u8> {
    let changes = *random.pick(&[0, 0, 1, 1, 1, 1, 2, 3]);
    let of_fields = (0..changes).filter(|_| random.below(3) > 0).count();
    for _ in 0..of_fields {
        change_fields(random, &mut fields, pool);
    }
    let mut bytes = fields.concat();
    for _ in of_fields..changes {
        change_bytes(random, &mut bytes);
    }
    bytes
}
