//! Pass by pass in safe Rust: each width above 1 is one pass from one buffer to
//! the other over the grown picture as one sequence.

use crate::work::Work;

/// y(k) = y(k - 1) + v(k) - v(k - n).
pub fn row_pass(n: usize, v: &[u64], y: &mut [u64]) {
    let (first, others) = y.split_at_mut(n);
    let mut total: u64 = 0;
    for (y, &v) in first.iter_mut().zip(v) {
        total = total.wrapping_add(v);
        *y = total;
    }
    for ((y, &v), &old) in others.iter_mut().zip(&v[n..]).zip(v) {
        total = total.wrapping_add(v).wrapping_sub(old);
        *y = total;
    }
}

/// y(k) = y(k - W) + v(k) - v(k - n W), row by row for rows of W places.
pub fn column_pass(n: usize, full_width: usize, v: &[u64], y: &mut [u64]) {
    let rows = v.chunks_exact(full_width);
    let leaving = v.chunks_exact(full_width);
    let (first, _) = y.split_at_mut(full_width);
    first.copy_from_slice(&v[..full_width]);
    for (j, new) in rows.clone().enumerate().skip(1).take(n - 1) {
        let (done, rest) = y.split_at_mut(j * full_width);
        let above = &done[done.len() - full_width..];
        for ((y, &above), &v) in rest.iter_mut().zip(above).zip(new) {
            *y = above.wrapping_add(v);
        }
    }
    for ((j, new), old) in rows.enumerate().skip(n).zip(leaving) {
        let (done, rest) = y.split_at_mut(j * full_width);
        let above = &done[done.len() - full_width..];
        for (((y, &above), &v), &old) in rest.iter_mut().zip(above).zip(new).zip(old) {
            *y = above.wrapping_add(v).wrapping_sub(old);
        }
    }
}

/// The picture, with zeros to the right of it and below.
pub fn spread(pixels: &[u8], width: usize, full_width: usize, grown: &mut [u64]) {
    let mut rows = pixels.chunks_exact(width);
    for out in grown.chunks_exact_mut(full_width) {
        let (left, right) = out.split_at_mut(width);
        match rows.next() {
            Some(row) => {
                for (out, &pixel) in left.iter_mut().zip(row) {
                    *out = u64::from(pixel);
                }
            }
            None => left.fill(0),
        }
        right.fill(0);
    }
}

pub fn run(work: &mut Work) {
    let full_width = work.full_width();
    let wider = |list: &[u8]| -> Vec<usize> {
        let widths = list.iter().map(|&n| usize::from(n));
        widths.filter(|&n| n > 1).collect()
    };
    let (rows, columns) = (wider(&work.rows), wider(&work.columns));
    let size = work.out.len();
    // The last pass writes to the output.
    let (mut v, mut y) = (&mut work.out[..], &mut work.cells[..size]);
    if (rows.len() + columns.len()) % 2 == 1 {
        std::mem::swap(&mut v, &mut y);
    }
    spread(&work.pixels, work.width, full_width, v);
    for n in rows {
        row_pass(n, v, y);
        std::mem::swap(&mut v, &mut y);
    }
    for n in columns {
        column_pass(n, full_width, v, y);
        std::mem::swap(&mut v, &mut y);
    }
}
