//! A model of docs/CELLS.md: what one accepted row call or drain makes of any
//! cells. It is written from that page alone, with sums formed anew for every
//! place and lists of their own for every stage. All sums are modulo 2^64.

use reference::{reach, State};

/// A row of values after a stage, and the cells that the stage leaves.
type Stage = (Vec<u64>, Vec<u64>);

fn sum(values: &[u64]) -> u64 {
    let add = |total: u64, &value| total.wrapping_add(value);
    values.iter().fold(0, add)
}

/// A width of the row list: each place has the sum of n values up to it. What
/// the cells held before plays no part.
fn row_stage(n: usize, row: &[u64]) -> Stage {
    let first = |k: usize| (k + 1).saturating_sub(n);
    let out = (0..row.len()).map(|k| sum(&row[first(k)..=k])).collect();
    let mut cells = match n {
        1 => vec![],
        2 => vec![row[row.len() - 1]],
        _ => vec![0; n],
    };
    if n > 2 {
        for k in 0..row.len() {
            cells[k % n] = sum(&row[..=k]);
        }
    }
    (out, cells)
}

/// A width of the column list after e rows; its cells are the first of those
/// given.
fn column_stage(n: usize, e: usize, row: &[u64], given: &[u64]) -> Stage {
    let width = row.len();
    match n {
        1 => (row.to_vec(), vec![]),
        2 => {
            let out = (0..width).map(|i| row[i].wrapping_add(given[i])).collect();
            (out, row.to_vec())
        }
        _ => {
            let this = e % n;
            let before = (e + n - 1) % n;
            let mut out = vec![];
            let mut cells = given[..n * width].to_vec();
            for i in 0..width {
                let total = given[before * width + i].wrapping_add(row[i]);
                out.push(total.wrapping_sub(given[this * width + i]));
                cells[this * width + i] = total;
            }
            (out, cells)
        }
    }
}

/// The output row and all cells after an accepted call on this state with the
/// pixels of a row, none for a drain.
pub fn after_call(state: &State, pixels: &[u64], given: &[u64]) -> (Vec<u64>, Vec<u64>) {
    let mut row = pixels.to_vec();
    row.resize(state.w + reach(&state.recipe.rows), 0);
    // The cells of the stages so far; those of the next one follow.
    let mut left = vec![];
    for one in &state.recipe.rows {
        let (out, cells) = row_stage(one.width.into(), &row);
        row = out;
        left.extend(cells);
    }
    for one in &state.recipe.columns {
        let n = one.width.into();
        let (out, cells) = column_stage(n, state.yielded, &row, &given[left.len()..]);
        row = out;
        left.extend(cells);
    }
    left.extend_from_slice(&given[left.len()..]);
    (row, left)
}
