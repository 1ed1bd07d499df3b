//! The column list: groups of stages, each group in one sweep over the row, eight
//! columns at a time.

use super::cells_of;
use std::array;
use std::mem::{replace, take};

/// Columns that are worked together.
const BLOCK: usize = 8;
type Block = [u64; BLOCK];

/// The most stages of width 2 in a group,
const MOST_PAIRS: usize = 8;
/// and the most wider ones.
const MOST_RINGS: usize = 3;

fn sum(a: &Block, b: &Block) -> Block {
    array::from_fn(|k| a[k].wrapping_add(b[k]))
}

fn difference(a: &Block, b: &Block) -> Block {
    array::from_fn(|k| a[k].wrapping_sub(b[k]))
}

/// A group of boxes of width 2, each with a row of cells: this row and the one
/// before it.
fn pairs(row: &mut [u64], cells: &mut [u64]) {
    let width = row.len();
    let (blocks, rest) = row.as_chunks_mut::<BLOCK>();
    let mut from = 0;
    for block in blocks {
        let mut x = *block;
        for own in cells.chunks_exact_mut(width) {
            let own = own[from..].first_chunk_mut().expect("as many as columns");
            let above = replace(own, x);
            x = sum(&x, &above);
        }
        *block = x;
        from += BLOCK;
    }
    for own in cells.chunks_exact_mut(width) {
        for (x, own) in rest.iter_mut().zip(&mut own[from..]) {
            let above = replace(own, *x);
            *x = x.wrapping_add(above);
        }
    }
}

/// The rows of cells of a wider box that a row has to do with: the totals of the
/// row before it, and the oldest, which give way to its own.
struct Ring<'a> {
    last: (&'a [Block], &'a [u64]),
    oldest: (&'a mut [Block], &'a mut [u64]),
}

impl<'a> Ring<'a> {
    fn new(n: usize, emitted: usize, width: usize, cells: &'a mut [u64]) -> Ring<'a> {
        let oldest = emitted % n;
        let last = (oldest + n - 1) % n;
        let slots = [last, oldest].map(|slot| slot * width..(slot + 1) * width);
        let [last, oldest] = cells
            .get_disjoint_mut(slots)
            .expect("a wider box has at least three rows of cells");
        Ring {
            last: last.as_chunks(),
            oldest: oldest.as_chunks_mut(),
        }
    }
}

/// A group of wider boxes.
fn rings<const N: usize>(row: &mut [u64], rings: [Ring; N]) {
    let (blocks, rest) = row.as_chunks_mut::<BLOCK>();
    let count = blocks.len();
    // Equal lengths leave no test in the loop.
    let mut rings = rings.map(|ring| Ring {
        last: (&ring.last.0[..count], ring.last.1),
        oldest: (&mut ring.oldest.0[..count], ring.oldest.1),
    });
    for (k, block) in (0..count).zip(blocks) {
        let mut x = *block;
        for Ring { last, oldest } in &mut rings {
            let total = sum(&last.0[k], &x);
            let oldest = replace(&mut oldest.0[k], total);
            x = difference(&total, &oldest);
        }
        *block = x;
    }
    for Ring { last, oldest } in rings {
        for ((x, last), oldest) in rest.iter_mut().zip(last.1).zip(oldest.1) {
            let total = last.wrapping_add(*x);
            let oldest = replace(oldest, total);
            *x = total.wrapping_sub(oldest);
        }
    }
}

/// N wider boxes, each with its own part of the cells.
fn wider<const N: usize>(group: &[u8], emitted: usize, row: &mut [u64], mut cells: &mut [u64]) {
    let width = row.len();
    let stages = array::from_fn::<_, N, _>(|k| {
        let n = usize::from(group[k]);
        let own;
        (own, cells) = take(&mut cells).split_at_mut(n * width);
        Ring::new(n, emitted, width, own)
    });
    rings(row, stages);
}

/// Works a list of widths down the columns, at the row after `emitted` others.
pub fn work(list: &[u8], emitted: usize, row: &mut [u64], mut cells: &mut [u64]) {
    for run in list.chunk_by(|&a, &b| a.min(3) == b.min(3)) {
        let most = match run[0] {
            1 => continue,
            2 => MOST_PAIRS,
            _ => MOST_RINGS,
        };
        for group in run.chunks(most) {
            let rows: usize = group.iter().map(|&n| cells_of(n)).sum();
            let own;
            (own, cells) = cells.split_at_mut(rows * row.len());
            match (run[0], group.len()) {
                (2, _) => pairs(row, own),
                (_, 1) => wider::<1>(group, emitted, row, own),
                (_, 2) => wider::<2>(group, emitted, row, own),
                (_, _) => wider::<3>(group, emitted, row, own),
            }
        }
    }
}
