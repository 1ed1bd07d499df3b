//! Refusals on purpose: filters with chosen causes, and the number that comes
//! first of several.

use super::{filter, shuffled};
use bore::Filter;
use reference::random::Random;

/// A filter to which just the wished ones of 1 to 4 apply, each caused by one
/// axis. All widths that are not part of a cause are 1.
pub fn with_refusals(random: &mut Random, wished: [bool; 4], on_rows: [bool; 4]) -> Filter {
    let mut lists = [vec![], vec![]];
    let mut counts = [48, 48];
    let causes: [&[u8]; 4] = [&[], &[0], &[255, 3], &[2; 45]];
    for i in 0..4 {
        if wished[i] {
            lists[usize::from(on_rows[i])].extend_from_slice(causes[i]);
        }
    }
    if wished[0] {
        counts[usize::from(on_rows[0])] = random.one_of(&[49, 255]);
    }
    for list in &mut lists {
        list.resize(48, 1);
        *list = shuffled(random, list);
    }
    let mut filter = filter(&lists[1], &lists[0]);
    filter.rows.count = counts[1];
    filter.columns.count = counts[0];
    filter
}

/// The lowest bits of a number.
pub fn from_bits<const N: usize>(bits: usize) -> [bool; N] {
    std::array::from_fn(|i| bits >> i & 1 == 1)
}

/// The number of the first cause that applies.
pub fn first<const N: usize>(wished: [bool; N], numbers: [u8; N]) -> u8 {
    let causes = wished.into_iter().zip(numbers);
    causes
        .filter(|cause| cause.0)
        .map(|cause| cause.1)
        .next()
        .unwrap_or(0)
}
