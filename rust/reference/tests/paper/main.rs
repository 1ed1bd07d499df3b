//! Tests of the reference version against document 01 and, for the ladder, the
//! leftovers and the inside weights, document 02, one module for each subject,
//! and the helpers that several of them use.

mod agreement;
mod jobs;
mod ladder;
mod mistakes;
mod one_pass;
mod random_makers;
mod refusal_order;
mod triangle;
mod wall_pieces;

use reference::{
    boxes, difference, difference_cells, exact_sums, grown_sides, needed_cells, same_size_blur,
    same_size_cells, Recipe, Stream,
};

fn rows(list: &[u8]) -> Recipe {
    Recipe::new(list, &[])
}

fn columns(list: &[u8]) -> Recipe {
    Recipe::new(&[], list)
}

/// The coefficients of a list of widths.
fn coefficients(widths: &[u8], out_len: usize) -> Result<Vec<u64>, u8> {
    reference::coefficients(&boxes(widths), out_len)
}

/// All exact sums of an accepted recipe and picture.
fn sums(recipe: &Recipe, w: usize, h: usize, pixels: &[u64]) -> Vec<u64> {
    exact_sums(recipe, w, h, pixels).unwrap()
}

/// The same-size blur with buffers of just the right lengths: the greys and the
/// leftovers.
fn blur(recipe: &Recipe, w: usize, h: usize, pixels: &[u64]) -> (Vec<u64>, Vec<i64>) {
    let cells = same_size_cells(recipe, w, h).unwrap();
    let blurred = same_size_blur(recipe, w, h, pixels, [w * h; 2], cells).unwrap();
    (blurred.greys, blurred.leftovers)
}

/// The difference with buffers of just the right lengths.
fn subtract(a: &Recipe, b: &Recipe, w: usize, h: usize, pixels: &[u64]) -> Vec<i64> {
    let cells = difference_cells(a, b, w, h).unwrap();
    difference(a, b, w, h, pixels, w * h, cells).unwrap()
}

/// All rows that the one pass yields, and the total of its counts.
fn one_pass(recipe: &Recipe, w: usize, h: usize, pixels: &[u64]) -> (Vec<u64>, u64) {
    let cells = needed_cells(recipe, w).unwrap();
    let (width, height) = grown_sides(recipe, w, h).unwrap();
    let started = Stream::start(recipe, w, h, cells);
    let (mut stream, mut state) = (started.stream, started.state);
    let (mut all, mut count) = (Vec::new(), 0);
    for j in 0..height {
        let called = if j < h {
            stream.row(&state, &pixels[j * w..(j + 1) * w], width, cells)
        } else {
            stream.drain(&state, width, cells)
        };
        assert_eq!(called.result, Ok(()));
        all.extend(called.sums.unwrap());
        count += called.count;
        state = called.state;
    }
    (all, count)
}
