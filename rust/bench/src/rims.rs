//! The inside weights of a square picture in safe Rust, and its rows rounded by
//! them: the middle of a row, where the inside weight does not change, by one
//! divisor, and each place of the rims beside it by its own.

use crate::greys::{round, Divisor};
use crate::work::reach;
use std::ops::Range;

/// Each value and all before it, added up.
fn accumulate(values: &mut [u64]) {
    let mut total = 0;
    for value in values {
        total += *value;
        *value = total;
    }
}

/// The coefficients of a list: for each box a running total, and from each value
/// the one n places before it.
fn coefficients(list: &[u8]) -> Vec<u64> {
    let mut kernel = vec![0; reach(list) + 1];
    kernel[0] = 1;
    for n in list.iter().map(|&n| usize::from(n)) {
        accumulate(&mut kernel);
        for k in (n..kernel.len()).rev() {
            kernel[k] -= kernel[k - n];
        }
    }
    kernel
}

/// What of a list's coefficients falls inside at each place of a side, from their
/// running totals.
pub fn axis_weights(list: &[u8], side: usize) -> Vec<u64> {
    let mut totals = coefficients(list);
    accumulate(&mut totals);
    let last = totals.len() - 1;
    let up_to = |i: usize| totals[i.min(last)];
    let before = |i: usize| i.checked_sub(side).map_or(0, |i| totals[i]);
    let places = last / 2..last / 2 + side;
    places.map(|i| up_to(i) - before(i)).collect()
}

/// The run of equal weights around the middle.
fn middle_run(weights: &[u64]) -> Range<usize> {
    let middle = weights.len() / 2;
    let equal = |weight: &&u64| **weight == weights[middle];
    let before = weights[..middle].iter().rev().take_while(equal).count();
    let after = weights[middle..].iter().take_while(equal).count();
    middle - before..middle + after
}

/// A rim: what falls inside along the rows at each of its places, and what
/// divides there.
struct Rim {
    across: Vec<u64>,
    by: Vec<Divisor>,
}

impl Rim {
    fn new(across: &[u64]) -> Rim {
        Rim {
            across: across.to_vec(),
            by: Vec::with_capacity(across.len()),
        }
    }

    fn set(&mut self, down: u64) {
        let weights = self.across.iter().map(|across| across * down);
        self.by.clear();
        self.by.extend(weights.map(Divisor::new));
    }

    fn round(&self, sums: &[u64], (out, leftovers): (&mut [u8], &mut [i64])) {
        let places = out.iter_mut().zip(leftovers).zip(sums);
        for (((out, leftover), &sum), by) in places.zip(&self.by) {
            let gray = by.by_reciprocal(sum);
            *out = gray as u8;
            *leftover = sum as i64 - (gray * by.weight) as i64;
        }
    }
}

/// What divides in the rows that have one inside weight down the columns.
pub struct Band {
    down: u64,
    left: Rim,
    across: u64,
    middle: Range<usize>,
    by: Divisor,
    right: Rim,
}

impl Band {
    /// Before the first row, with what falls inside along the rows.
    pub fn new(across: &[u64]) -> Band {
        let middle = middle_run(across);
        Band {
            down: 0,
            left: Rim::new(&across[..middle.start]),
            across: across[middle.start],
            right: Rim::new(&across[middle.end..]),
            middle,
            by: Divisor::new(1),
        }
    }

    /// For a row with this inside weight down the columns. The divisors are kept
    /// where it is that of the row before.
    pub fn set_down(&mut self, down: u64) {
        if down != self.down {
            self.down = down;
            self.left.set(down);
            self.by = Divisor::new(self.across * down);
            self.right.set(down);
        }
    }

    /// Rounds the sums of a picture row.
    pub fn round(&self, sums: &[u64], (out, leftovers): (&mut [u8], &mut [i64])) {
        let middle = self.middle.clone();
        let (left, right) = (..middle.start, middle.end..);
        let outputs = (&mut out[left], &mut leftovers[left]);
        self.left.round(&sums[left], outputs);
        let outputs = (&mut out[right.clone()], &mut leftovers[right.clone()]);
        self.right.round(&sums[right], outputs);
        let outputs = (&mut out[middle.clone()], &mut leftovers[middle.clone()]);
        round(&self.by, &sums[middle], outputs);
    }
}
