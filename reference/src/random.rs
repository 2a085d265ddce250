//! Numbers that look random and are the same in every run: splitmix64 from a fixed seed.

use crate::field::Field;

pub struct Random {
    state: u64,
}

impl Random {
    pub fn new(seed: u64) -> Random {
        Random { state: seed }
    }

    pub fn number(&mut self) -> u64 {
        self.state = self.state.wrapping_add(0x9e37_79b9_7f4a_7c15);
        let mut z = self.state;
        z = (z ^ z >> 30).wrapping_mul(0xbf58_476d_1ce4_e5b9);
        z = (z ^ z >> 27).wrapping_mul(0x94d0_49bb_1331_11eb);
        z ^ z >> 31
    }

    /// A number below n, which is small.
    pub fn below(&mut self, n: usize) -> usize {
        (self.number() % n as u64) as usize
    }

    /// One of a row.
    pub fn pick<'a, T>(&mut self, row: &'a [T]) -> &'a T {
        &row[self.below(row.len())]
    }

    /// The row in a drawn order.
    pub fn shuffled<T>(&mut self, mut row: Vec<T>) -> Vec<T> {
        for i in (1..row.len()).rev() {
            row.swap(i, self.below(i + 1));
        }
        row
    }

    /// An element, drawn from the whole field.
    pub fn element(&mut self, field: Field) -> u64 {
        self.number() >> (64 - field.degree)
    }
}

#[cfg(test)]
mod tests {
    use super::*;

    /// The first three numbers from seed 1234567, as published with the generator.
    #[test]
    fn published_numbers() {
        let mut random = Random::new(1234567);
        assert_eq!(random.number(), 6457827717110365317);
        assert_eq!(random.number(), 3203168211198807973);
        assert_eq!(random.number(), 9817491932198370423);
    }

    #[test]
    fn shuffled_rows() {
        let mut row = Random::new(1).shuffled((0..100).collect());
        assert_ne!(row, (0..100).collect::<Vec<_>>());
        row.sort();
        assert_eq!(row, (0..100).collect::<Vec<_>>());
    }
}
