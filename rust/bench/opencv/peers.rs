//! Times of the library's one pass beside the same loops in Rust and OpenCV's
//! filters in 64-bit floats, as a table in Markdown: tools/peers builds and runs
//! it.
//!
//! OpenCV gets the picture in a black frame of the grown size, which is made
//! before the times are taken. Before a time is taken, all four results are
//! compared; a difference ends the program.

#![deny(unsafe_code)]

mod filters;

use bench::stream;
use bench::timing::alternate;
use bench::work::{cascade, reach, Work};
use filters::Picture;

/// The side of the picture.
const SIDE: usize = 1024;

const LADDER: &[u8] = &[2, 3, 4, 6, 8, 12, 16];

/// The filters: name, row widths, column widths.
const FILTERS: [(&str, &[u8], &[u8]); 8] = [
    ("5 by 5 binomial", &[2; 4], &[2; 4]),
    ("9 by 9 binomial", &[2; 8], &[2; 8]),
    ("three boxes of 5 each way", &[5; 3], &[5; 3]),
    ("three boxes of 15 each way", &[15; 3], &[15; 3]),
    ("ladder 2,3,4,6,8,12,16 along rows", LADDER, &[]),
    ("the same each way", LADDER, LADDER),
    ("one box of 64 each way", &[64], &[64]),
    ("22 twos each way", &[2; 22], &[2; 22]),
];

/// The coefficients of a list, which floats hold exactly.
fn kernel(list: &[u8]) -> Vec<f64> {
    let mut kernel = vec![0; reach(list) + 1];
    let number = bore::kernel(&cascade(list), &mut kernel);
    assert_eq!(number, 0, "the list is accepted");
    kernel
        .iter()
        .map(|&coefficient| coefficient as f64)
        .collect()
}

/// The boxes of a recipe as widths and heights, as many as the longer list has.
fn boxes([rows, columns]: [&[u8]; 2]) -> Vec<[i32; 2]> {
    let side = |list: &[u8], k: usize| list.get(k).map_or(1, |&n| n.into());
    let count = rows.len().max(columns.len());
    (0..count)
        .map(|k| [side(rows, k), side(columns, k)])
        .collect()
}

/// How far OpenCV's kernels of these lengths move a picture back: it puts the sum
/// of a window at the window's place n / 2, not at its last, n - 1.
fn moved(lengths: impl IntoIterator<Item = usize>) -> usize {
    lengths.into_iter().map(|n| n - 1 - n / 2).sum()
}

/// The picture in a black frame of the grown size, with its first pixel at this
/// column and row.
fn framed(work: &Work, [column, row]: [usize; 2]) -> Picture {
    let full_width = work.full_width();
    let mut pixels = vec![0; work.out.len()];
    let rows = pixels.chunks_exact_mut(full_width).skip(row);
    for (framed, row) in rows.zip(work.pixels.chunks_exact(work.width)) {
        framed[column..][..work.width].copy_from_slice(row);
    }
    Picture::new(full_width, pixels)
}

/// One filter by all four sides, whose results have to agree.
fn line(name: &str, lists: [&[u8]; 2]) {
    let mut library = Work::new(lists[0], lists[1], SIDE);
    let mut rust = library.clone();
    let kernels = lists.map(kernel);
    let kernels = kernels.each_ref().map(Vec::as_slice);
    let boxes = boxes(lists);
    let mut separable = framed(&library, kernels.map(|kernel| moved([kernel.len()])));
    let mut boxed = framed(
        &library,
        lists.map(|list| moved(list.iter().map(|&n| n.into()))),
    );

    library.stream();
    stream::run(&mut rust);
    separable.sep_filter(kernels);
    boxed.box_filters(&boxes);
    assert!(library.out == rust.out, "Rust, {name}");
    let sums = library.out.iter().map(|&sum| sum as f64);
    let exact = |floats: &[f64]| sums.clone().eq(floats.iter().copied());
    assert!(exact(separable.sums()), "sepFilter2D, {name}");
    assert!(exact(boxed.sums()), "boxFilter, {name}");

    let [a, b, c, d] = alternate([
        &mut || library.stream(),
        &mut || stream::run(&mut rust),
        &mut || separable.sep_filter(kernels),
        &mut || boxed.box_filters(&boxes),
    ]);
    let (of_rust, of_best) = (a / b, a / c.min(d));
    println!("| {name} | {a:.2} | {b:.2} | {of_rust:.2} | {c:.2} | {d:.2} | {of_best:.2} |");
}

fn main() {
    let version = filters::in_one_thread();
    println!("Picture of 1,024 by 1,024 to exact sums, by the one pass of the library, by the");
    println!("same loops in Rust, and by OpenCV {version} in 64-bit floats on one thread. Times");
    println!("in milliseconds, the least of several runs in alternation, with warm buffers.");
    println!();
    println!(
        "| Filter | Library, ms | Rust, ms | Library / Rust \
         | sepFilter2D, ms | boxFilter, ms | Library / better of the two |"
    );
    println!("|---|---|---|---|---|---|---|");
    for (name, rows, columns) in FILTERS {
        line(name, [rows, columns]);
    }
}
