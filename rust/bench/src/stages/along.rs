//! The row list along the pixels of a row and the black places after them, by
//! sweeps that work several stages each.
//!
//! The order of the stages does not matter, and a wider box is a running total
//! and then a difference n apart: all totals come first, then the boxes of width
//! 2, then the differences. A list without wider boxes begins in 16 bits.

use super::MOST_WIDTH;

/// The boxes of width 2 whose sums over bytes stay within 16 bits.
const NARROW: usize = 8;

/// The places of a difference that are worked together.
const BLOCK: usize = 8;

/// N boxes of width 2 in one sweep: to each value the one before it.
fn pairs<T: Copy + Default, const N: usize>(row: &mut [T], add: impl Fn(T, T) -> T) {
    let mut before = [T::default(); N];
    for value in row {
        for before in &mut before {
            let now = *value;
            *value = add(now, *before);
            *before = now;
        }
    }
}

/// Boxes of width 2, four in a sweep, then two and one (the library takes no two
/// in 16 bits).
fn all_pairs<T: Copy + Default>(count: usize, row: &mut [T], add: impl Fn(T, T) -> T + Copy) {
    for _ in 0..count / 4 {
        pairs::<T, 4>(row, add);
    }
    if count % 4 >= 2 {
        pairs::<T, 2>(row, add);
    }
    if count % 2 == 1 {
        pairs::<T, 1>(row, add);
    }
}

/// Adds a value to the first total, that total to the second, and so on.
fn add_to<const N: usize>(totals: &mut [u64; N], mut value: u64) -> u64 {
    for total in totals {
        *total = total.wrapping_add(value);
        value = *total;
    }
    value
}

/// N running totals in one sweep, from the pixels. Gives the total of the pixels.
fn first_totals<const N: usize>(narrow: &[u16], row: &mut [u64]) -> u64 {
    let mut totals = [0; N];
    for (value, &pixel) in row.iter_mut().zip(narrow) {
        *value = add_to(&mut totals, u64::from(pixel));
    }
    totals[0]
}

/// N running totals in one sweep, in place.
fn totals<const N: usize>(row: &mut [u64]) {
    let mut totals = [0; N];
    for value in row {
        *value = add_to(&mut totals, *value);
    }
}

/// One or more running totals, three in a sweep, then one. Gives the total of the
/// pixels.
fn all_totals(count: usize, narrow: &[u16], row: &mut [u64]) -> u64 {
    let (total, rest) = match count {
        1 | 2 => (first_totals::<1>(narrow, row), count - 1),
        _ => (first_totals::<3>(narrow, row), count - 3),
    };
    for _ in 0..rest / 3 {
        totals::<3>(row);
    }
    for _ in 0..rest % 3 {
        totals::<1>(row);
    }
    total
}

/// From each value the one n places before it, in place from the end of the row.
/// A block and what is taken from it may overlap, so the latter is copied first.
fn difference(n: usize, mut row: &mut [u64]) {
    while let Some(from) = row.len().checked_sub(n + BLOCK) {
        let before: [u64; BLOCK] = row[from..from + BLOCK].try_into().expect("a block");
        let block;
        (row, block) = row.split_at_mut(from + n);
        for (value, before) in block.iter_mut().zip(before) {
            *value = value.wrapping_sub(before);
        }
    }
    for k in (n..row.len()).rev() {
        row[k] = row[k].wrapping_sub(row[k - n]);
    }
}

/// A list of boxes of width 2 alone.
fn work_pairs(count: usize, narrow: &mut [u16], row: &mut [u64]) {
    let first = count.min(NARROW);
    all_pairs(first, narrow, u16::wrapping_add);
    for (value, &narrow) in row.iter_mut().zip(&*narrow) {
        *value = u64::from(narrow);
    }
    all_pairs(count - first, row, u64::wrapping_add);
}

/// Works a list of widths along the pixels and as many black places after them
/// as fill the row. Gives the total of the pixels where there is a wider box, and
/// else 0.
pub fn work(list: &[u8], pixels: &[u8], row: &mut [u64]) -> u64 {
    let mut narrow = [0; MOST_WIDTH];
    let narrow = &mut narrow[..row.len()];
    for (narrow, &pixel) in narrow.iter_mut().zip(pixels) {
        *narrow = u16::from(pixel);
    }
    let twos = list.iter().filter(|&&n| n == 2).count();
    let wider = list.iter().filter(|&&n| n > 2).count();
    if wider == 0 {
        work_pairs(twos, narrow, row);
        return 0;
    }
    let total = all_totals(wider, narrow, row);
    all_pairs(twos, row, u64::wrapping_add);
    for &n in list.iter().filter(|&&n| n > 2) {
        difference(n.into(), row);
    }
    total
}
