//! What is lent to a call. It stands in the middle of other values, and the
//! whole is compared after the call, so a call that writes where nothing was
//! lent is found out.

use reference::random::Random;
use std::fmt::{Arguments, Debug};

/// Values of which a middle part is lent.
#[derive(Clone, Debug, PartialEq, Eq)]
pub struct Lent<T> {
    all: Vec<T>,
    from: usize,
    length: usize,
}

impl<T> Lent<T> {
    /// Values made of random words, `length` of them to be lent.
    fn drawn(random: &mut Random, length: usize, value: fn(u64) -> T) -> Lent<T> {
        let (from, after) = (random.between(1, 3), random.between(1, 3));
        let words = (0..from + length + after).map(|_| random.word());
        let all = words.map(value).collect();
        Lent { all, from, length }
    }
}

impl Lent<u64> {
    /// Random words, `length` of them to be lent.
    pub fn words(random: &mut Random, length: usize) -> Lent<u64> {
        Lent::drawn(random, length, |word| word)
    }
}

impl Lent<i16> {
    /// Random signed numbers, `length` of them to be lent.
    pub fn signed(random: &mut Random, length: usize) -> Lent<i16> {
        Lent::drawn(random, length, |word| word as i16)
    }
}

impl Lent<i64> {
    /// Random signed words, `length` of them to be lent.
    pub fn signed_words(random: &mut Random, length: usize) -> Lent<i64> {
        Lent::drawn(random, length, |word| word as i64)
    }
}

impl Lent<u8> {
    /// Random bytes, `length` of them to be lent.
    pub fn any_bytes(random: &mut Random, length: usize) -> Lent<u8> {
        Lent::drawn(random, length, |word| word as u8)
    }

    /// These bytes to be lent, in the middle of random ones.
    pub fn bytes(random: &mut Random, bytes: &[u8]) -> Lent<u8> {
        let (from, after) = (random.between(1, 8), random.between(1, 8));
        let mut all: Vec<u8> = (0..from).map(|_| random.word() as u8).collect();
        all.extend_from_slice(bytes);
        all.extend((0..after).map(|_| random.word() as u8));
        Lent {
            all,
            from,
            length: bytes.len(),
        }
    }
}

impl<T: Copy + Debug + PartialEq> Lent<T> {
    /// How many values are lent.
    pub fn length(&self) -> usize {
        self.length
    }

    pub fn part(&self) -> &[T] {
        &self.all[self.from..self.from + self.length]
    }

    pub fn part_mut(&mut self) -> &mut [T] {
        &mut self.all[self.from..self.from + self.length]
    }

    /// Sets the first of the lent values.
    pub fn set(&mut self, values: &[T]) {
        self.part_mut()[..values.len()].copy_from_slice(values);
    }

    /// Fails at the first value, lent or not, that is not the expected one.
    #[track_caller]
    pub fn has_to_be(&self, expected: &Lent<T>, what: &str, note: Arguments) {
        if self == expected {
            return;
        }
        let pairs = self.all.iter().zip(&expected.all);
        let at = pairs.take_while(|(found, value)| found == value).count();
        panic!(
            "{what} of length {} at place {}: found {:?}, expected {:?}; {note}",
            self.length,
            at as isize - self.from as isize,
            self.all[at],
            expected.all[at],
        );
    }
}
