//! The one pass in safe Rust: all stages run on a row before the next row comes.

use crate::stages::next_row;
use crate::work::Work;

pub fn run(work: &mut Work) {
    let full_width = work.full_width();
    let mut out = std::mem::take(&mut work.out);
    let mut cells = std::mem::take(&mut work.cells);
    cells[..work.needed].fill(0);
    let lists = [&work.rows[..], &work.columns];
    let mut rows = work.pixels.chunks_exact(work.width);
    for (emitted, out) in out.chunks_exact_mut(full_width).enumerate() {
        next_row(lists, emitted, rows.next().unwrap_or(&[]), out, &mut cells);
    }
    work.out = out;
    work.cells = cells;
}
