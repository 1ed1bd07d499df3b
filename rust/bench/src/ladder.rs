//! The fading ladder in safe Rust: level by level, the new widths of each as
//! passes from one buffer to the other over the grown picture.

use crate::passes::{column_pass, row_pass, spread};
use crate::work::Work;
use std::iter;

/// The widths of level 8; each level below has one fewer, level 1 three.
pub const WIDTHS: [u8; 10] = [2, 3, 4, 6, 8, 12, 16, 24, 32, 48];

/// The level's widths along the rows, and where there are columns, the same down
/// these.
pub fn run(level: usize, work: &mut Work) {
    let full_width = work.full_width();
    let size = work.out.len();
    let (first, others) = WIDTHS[..level + 2].split_at(3);
    // The last pass writes to the output.
    let (mut v, mut y) = (&mut work.out[..], &mut work.cells[..size]);
    if (work.rows.len() + work.columns.len()) % 2 == 1 {
        std::mem::swap(&mut v, &mut y);
    }
    spread(&work.pixels, work.width, full_width, v);
    for added in iter::once(first).chain(others.chunks(1)) {
        for &n in added {
            row_pass(n.into(), v, y);
            std::mem::swap(&mut v, &mut y);
        }
        if work.columns.is_empty() {
            continue;
        }
        for &n in added {
            column_pass(n.into(), full_width, v, y);
            std::mem::swap(&mut v, &mut y);
        }
    }
}
