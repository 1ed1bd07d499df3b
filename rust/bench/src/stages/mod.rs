//! The stages of the one pass in safe Rust: the row list along a row of pixels,
//! the column list in place on the sums, each stage with its own part of the
//! cells.

mod along;
mod columns;

/// The largest width of a grown row.
pub const MOST_WIDTH: usize = 1024 + 255;

/// The cells of a box, for each place of a row where it stands in the column
/// list.
fn cells_of(n: u8) -> usize {
    match n {
        1 => 0,
        2 => 1,
        n => n.into(),
    }
}

/// What the row list leaves in its cells, which come first; gives the others. A
/// row ends in as many black places as the list reaches: width 2 keeps the last
/// value, which is black, and a wider box running totals, each the total of the
/// row that came to it. Each box multiplies that total.
fn keep<'a>(list: &[u8], total: u64, mut cells: &'a mut [u64]) -> &'a mut [u64] {
    let mut entering = total;
    for &n in list {
        let own;
        (own, cells) = cells.split_at_mut(cells_of(n));
        own.fill(if n == 2 { 0 } else { entering });
        entering *= u64::from(n);
    }
    cells
}

/// One grown row from the pixels of a row, for row widths and column widths; a
/// drain has no pixels.
pub fn next_row(
    [rows, columns]: [&[u8]; 2],
    emitted: usize,
    pixels: &[u8],
    out: &mut [u64],
    cells: &mut [u64],
) {
    let total = along::work(rows, pixels, out);
    let cells = keep(rows, total, cells);
    columns::work(columns, emitted, out, cells);
}
