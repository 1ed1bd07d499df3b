//! The comparing call in safe Rust: the checks of both recipes, then for each
//! axis two tables of how often each width occurs.

use crate::checks::weight_of;
use crate::work::noise;
use bore::{Cascade, Filter};

/// The list of a cascade, or the number of one that is too long.
pub fn list(cascade: &Cascade) -> Result<&[u8], u8> {
    let count = usize::from(cascade.count);
    cascade.widths.get(..count).ok_or(1)
}

/// The lists of a filter, or its number.
fn lists(filter: &Filter) -> Result<[&[u8]; 2], u8> {
    let lists = [list(&filter.rows)?, list(&filter.columns)?];
    weight_of(lists)?;
    Ok(lists)
}

/// Whether every width but 1 occurs as often in the one list as in the other.
/// As far as both go, one loop counts both: that is faster than a loop for each.
fn same_counts(x: &[u8], y: &[u8]) -> bool {
    let mut of_x = [0u8; 256];
    let mut of_y = [0u8; 256];
    for (&n, &m) in x.iter().zip(y) {
        of_x[usize::from(n)] += 1;
        of_y[usize::from(m)] += 1;
    }
    let both = x.len().min(y.len());
    for &n in &x[both..] {
        of_x[usize::from(n)] += 1;
    }
    for &m in &y[both..] {
        of_y[usize::from(m)] += 1;
    }
    of_x[1] = of_y[1];
    of_x == of_y
}

fn compared(a: &Filter, b: &Filter) -> Result<bool, u8> {
    let [a_rows, a_columns] = lists(a)?;
    let [b_rows, b_columns] = lists(b)?;
    Ok(same_counts(a_rows, b_rows) && same_counts(a_columns, b_columns))
}

/// The call in the library's form.
pub fn equivalent(a: &Filter, b: &Filter, same: &mut u8) -> u8 {
    match compared(a, b) {
        Err(number) => number,
        Ok(equal) => {
            *same = u8::from(equal);
            0
        }
    }
}

/// A full list of these widths and ones, in an order that the keys give.
fn ordered(list: &[u8], keys: &[u8]) -> Cascade {
    let ones = std::iter::repeat(1);
    let full = list.iter().copied().chain(ones);
    let mut keyed: Vec<(u8, u8)> = keys.iter().copied().zip(full).collect();
    keyed.sort_by_key(|pair| pair.0);
    let widths = std::array::from_fn(|place| keyed[place].1);
    Cascade { count: 48, widths }
}

/// Pairs of equal filters of full lists with these widths each way, every list
/// in an order of its own.
pub fn shuffled_pairs(list: &[u8], pairs: usize) -> Vec<[Filter; 2]> {
    let keys = noise(pairs * 4 * 48);
    let filter = |keys: &[u8]| Filter {
        rows: ordered(list, &keys[..48]),
        columns: ordered(list, &keys[48..]),
    };
    let pair = |keys: &[u8]| [filter(&keys[..96]), filter(&keys[96..])];
    keys.chunks_exact(4 * 48).map(pair).collect()
}
