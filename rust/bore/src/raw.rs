//! The declarations of the static library's functions, and a safe form of
//! each. No other file of this crate has unsafe code, its tests apart.
//!
//! The test tests/declarations compares these declarations with the library's
//! source: each has to be equal to the exported function, argument by argument.
//! A block of 98 or 49 bytes is declared as the struct with these bytes, a block
//! of three words is three fields of a struct one after the other. A slice is a
//! pointer and a length. A call of which every argument is a number or a
//! reference is declared safe.

#![allow(unsafe_code)]

use std::mem::{align_of, offset_of, size_of};

use crate::{Cascade, Filter, Job, Moments, State};

// The blocks: a list is its count and its 48 widths, a recipe two lists.
const _: () = assert!(size_of::<Cascade>() == 49 && align_of::<Cascade>() == 1);
const _: () = assert!(offset_of!(Cascade, count) == 0 && offset_of!(Cascade, widths) == 1);
const _: () = assert!(size_of::<Filter>() == 98 && align_of::<Filter>() == 1);
const _: () = assert!(offset_of!(Filter, rows) == 0 && offset_of!(Filter, columns) == 49);

/// The words of a state or of a job that was read: width, height, and rows
/// yielded or the offset of the pixels. They are the fields from the width on.
pub type Words = [usize; 3];

const WORD: usize = size_of::<usize>();
const _: () = assert!(offset_of!(State, height) == offset_of!(State, width) + WORD);
const _: () = assert!(offset_of!(State, emitted) == offset_of!(State, width) + 2 * WORD);
const _: () = assert!(offset_of!(Job, height) == offset_of!(Job, width) + WORD);
const _: () = assert!(offset_of!(Job, offset) == offset_of!(Job, width) + 2 * WORD);

// The crate filter_c.
unsafe extern "C" {
    #[must_use = "a number other than 0 is a refusal"]
    pub safe fn bore_check(block: &Filter) -> u8;

    #[must_use = "a number other than 0 is a refusal"]
    pub fn bore_kernel(list: &Cascade, out: *mut u64, out_len: usize) -> u8;

    #[must_use = "a number other than 0 is a refusal"]
    pub safe fn bore_full_size(
        block: &Filter,
        width: usize,
        height: usize,
        full_width: &mut usize,
        full_height: &mut usize,
    ) -> u8;

    #[must_use = "a number other than 0 is a refusal"]
    pub safe fn bore_stream_cells(block: &Filter, width: usize, cells: &mut usize) -> u8;

    #[must_use = "a number other than 0 is a refusal"]
    pub safe fn bore_moments(
        block: &Filter,
        weight: &mut u64,
        row_order: &mut usize,
        column_order: &mut usize,
        row_variance: &mut f64,
        column_variance: &mut f64,
    ) -> u8;

    #[must_use = "a number other than 0 is a refusal"]
    pub safe fn bore_equivalent(a: &Filter, b: &Filter, same: &mut u8) -> u8;
}

// The crate sums_c.
unsafe extern "C" {
    #[must_use = "a number other than 0 is a refusal"]
    pub fn bore_direct(
        block: &Filter,
        width: usize,
        height: usize,
        pixels: *const u8,
        pixels_len: usize,
        row_kernel: *mut u64,
        row_kernel_len: usize,
        column_kernel: *mut u64,
        column_kernel_len: usize,
        out: *mut u64,
        out_len: usize,
    ) -> u8;

    #[must_use = "a number other than 0 is a refusal"]
    pub fn bore_passes(
        block: &Filter,
        width: usize,
        height: usize,
        pixels: *const u8,
        pixels_len: usize,
        out: *mut u64,
        out_len: usize,
        cells: *mut u64,
        cells_len: usize,
    ) -> u8;

    #[must_use = "a number other than 0 is a refusal"]
    pub fn bore_start(
        block: &Filter,
        width: usize,
        height: usize,
        cells: *mut u64,
        cells_len: usize,
        state: *mut Filter,
        words: *mut Words,
    ) -> u8;

    #[must_use = "a number other than 0 is a refusal"]
    pub fn bore_push(
        state: *const Filter,
        words: *mut Words,
        pixels: *const u8,
        pixels_len: usize,
        out: *mut u64,
        out_len: usize,
        cells: *mut u64,
        cells_len: usize,
        count: &mut u64,
    ) -> u8;

    #[must_use = "a number other than 0 is a refusal"]
    pub fn bore_drain(
        state: *const Filter,
        words: *mut Words,
        out: *mut u64,
        out_len: usize,
        cells: *mut u64,
        cells_len: usize,
        count: &mut u64,
    ) -> u8;
}

// The crate ladder_c.
unsafe extern "C" {
    #[must_use = "a number other than 0 is a refusal"]
    pub fn bore_ladder_rows(
        level: usize,
        width: usize,
        height: usize,
        pixels: *const u8,
        pixels_len: usize,
        out: *mut u64,
        out_len: usize,
        cells: *mut u64,
        cells_len: usize,
    ) -> u8;

    #[must_use = "a number other than 0 is a refusal"]
    pub fn bore_ladder_both(
        level: usize,
        width: usize,
        height: usize,
        pixels: *const u8,
        pixels_len: usize,
        out: *mut u64,
        out_len: usize,
        cells: *mut u64,
        cells_len: usize,
    ) -> u8;
}

// The crate gray_c.
unsafe extern "C" {
    #[must_use = "a number other than 0 is a refusal"]
    pub fn bore_round(
        block: &Filter,
        sums: *const u64,
        sums_len: usize,
        out: *mut u8,
        out_len: usize,
        leftovers: *mut i64,
        leftovers_len: usize,
    ) -> u8;

    #[must_use = "a number other than 0 is a refusal"]
    pub fn bore_blur(
        block: &Filter,
        width: usize,
        height: usize,
        pixels: *const u8,
        pixels_len: usize,
        out: *mut u8,
        out_len: usize,
        leftovers: *mut i64,
        leftovers_len: usize,
        cells: *mut u64,
        cells_len: usize,
    ) -> u8;

    #[must_use = "a number other than 0 is a refusal"]
    pub fn bore_difference(
        a: &Filter,
        b: &Filter,
        width: usize,
        height: usize,
        pixels: *const u8,
        pixels_len: usize,
        out: *mut i16,
        out_len: usize,
        cells: *mut u64,
        cells_len: usize,
    ) -> u8;

    #[must_use = "a number other than 0 is a refusal"]
    pub fn bore_sample_gray(
        block: &Filter,
        width: usize,
        height: usize,
        pixels: *const u8,
        pixels_len: usize,
        column: usize,
        row: usize,
        gray: &mut u8,
        leftover: &mut i64,
    ) -> u8;

    #[must_use = "a number other than 0 is a refusal"]
    pub fn bore_sample_sum(
        block: &Filter,
        width: usize,
        height: usize,
        pixels: *const u8,
        pixels_len: usize,
        column: usize,
        row: usize,
        sum: &mut u64,
    ) -> u8;

    #[must_use = "a number other than 0 is a refusal"]
    pub fn bore_sample_mean(
        block: &Filter,
        width: usize,
        height: usize,
        pixels: *const u8,
        pixels_len: usize,
        column: usize,
        row: usize,
        mean: &mut f64,
    ) -> u8;
}

// The crate job_c.
unsafe extern "C" {
    #[must_use = "a number other than 0 is a refusal"]
    pub fn bore_read_job(
        bytes: *const u8,
        bytes_len: usize,
        block: *mut Filter,
        words: *mut Words,
    ) -> u8;

    #[must_use = "a number other than 0 is a refusal"]
    pub safe fn bore_job_size(block: &Filter, width: usize, height: usize, size: &mut usize) -> u8;

    #[must_use = "a number other than 0 is a refusal"]
    pub fn bore_write_job(
        block: &Filter,
        width: usize,
        height: usize,
        pixels: *const u8,
        pixels_len: usize,
        out: *mut u8,
        out_len: usize,
    ) -> u8;
}

/// Whether a filter is accepted; refusals 1 to 4.
#[must_use = "a number other than 0 is a refusal"]
pub fn check(filter: &Filter) -> u8 {
    bore_check(filter)
}

/// The coefficients of one cascade, into an output of exactly its order + 1;
/// refusals 1 to 4 of the cascade as a filter of its own, then 7.
#[must_use = "a number other than 0 is a refusal"]
pub fn kernel(cascade: &Cascade, out: &mut [u64]) -> u8 {
    // SAFETY: the pointer and the length are those of one slice, which is lent
    // to this call alone.
    unsafe { bore_kernel(cascade, out.as_mut_ptr(), out.len()) }
}

/// The sides of the full convolution (document 01: the grown picture);
/// refusals 1 to 5.
#[must_use = "a number other than 0 is a refusal"]
pub fn full_size(
    filter: &Filter,
    width: usize,
    height: usize,
    full_width: &mut usize,
    full_height: &mut usize,
) -> u8 {
    bore_full_size(filter, width, height, full_width, full_height)
}

/// The work cells that the stream (document 01: the one pass) needs for a
/// picture of this width; refusals 1 to 5, 5 for the width alone.
#[must_use = "a number other than 0 is a refusal"]
pub fn stream_cells(filter: &Filter, width: usize, cells: &mut usize) -> u8 {
    bore_stream_cells(filter, width, cells)
}

/// The moments of a filter; refusals 1 to 4.
#[must_use = "a number other than 0 is a refusal"]
pub fn moments(filter: &Filter, moments: &mut Moments) -> u8 {
    bore_moments(
        filter,
        &mut moments.gain,
        &mut moments.row_order,
        &mut moments.column_order,
        &mut moments.row_variance,
        &mut moments.column_variance,
    )
}

/// Whether two filters are equal (document 01: the comparing call): `same`
/// becomes 1 where they are, else 0; refusals 1 to 4 of `a`, then those of `b`.
#[must_use = "a number other than 0 is a refusal"]
pub fn equivalent(a: &Filter, b: &Filter, same: &mut u8) -> u8 {
    bore_equivalent(a, b, same)
}

/// Every exact sum as it is defined (document 01: direct), with the
/// coefficients in two slices of exactly each order + 1 and the sums in an
/// output of exactly the grown size; refusals 1 to 7.
#[must_use = "a number other than 0 is a refusal"]
pub fn direct(
    filter: &Filter,
    width: usize,
    height: usize,
    pixels: &[u8],
    row_kernel: &mut [u64],
    column_kernel: &mut [u64],
    out: &mut [u64],
) -> u8 {
    // SAFETY: each pointer and the length after it are those of one slice; the
    // three that are written are lent to this call alone.
    unsafe {
        bore_direct(
            filter,
            width,
            height,
            pixels.as_ptr(),
            pixels.len(),
            row_kernel.as_mut_ptr(),
            row_kernel.len(),
            column_kernel.as_mut_ptr(),
            column_kernel.len(),
            out.as_mut_ptr(),
            out.len(),
        )
    }
}

/// The exact sums by one running sum after another over the whole grown
/// picture (document 01: pass by pass), in an output of exactly the grown size
/// and with at least as many work cells; refusals 1 to 8.
#[must_use = "a number other than 0 is a refusal"]
pub fn passes(
    filter: &Filter,
    width: usize,
    height: usize,
    pixels: &[u8],
    out: &mut [u64],
    cells: &mut [u64],
) -> u8 {
    // SAFETY: each pointer and the length after it are those of one slice; the
    // two that are written are lent to this call alone.
    unsafe {
        bore_passes(
            filter,
            width,
            height,
            pixels.as_ptr(),
            pixels.len(),
            out.as_mut_ptr(),
            out.len(),
            cells.as_mut_ptr(),
            cells.len(),
        )
    }
}

/// The exact sums of a level of the fading ladder along the rows; output, cells
/// and refusals as for `ladder`.
#[must_use = "a number other than 0 is a refusal"]
pub fn ladder_rows(
    level: usize,
    width: usize,
    height: usize,
    pixels: &[u8],
    out: &mut [u64],
    cells: &mut [u64],
) -> u8 {
    // SAFETY: each pointer and the length after it are those of one slice; the
    // two that are written are lent to this call alone.
    unsafe {
        bore_ladder_rows(
            level,
            width,
            height,
            pixels.as_ptr(),
            pixels.len(),
            out.as_mut_ptr(),
            out.len(),
            cells.as_mut_ptr(),
            cells.len(),
        )
    }
}

/// The exact sums of a level of the fading ladder on both axes; output, cells and
/// refusals as for `ladder`.
#[must_use = "a number other than 0 is a refusal"]
pub fn ladder_both(
    level: usize,
    width: usize,
    height: usize,
    pixels: &[u8],
    out: &mut [u64],
    cells: &mut [u64],
) -> u8 {
    // SAFETY: each pointer and the length after it are those of one slice; the
    // two that are written are lent to this call alone.
    unsafe {
        bore_ladder_both(
            level,
            width,
            height,
            pixels.as_ptr(),
            pixels.len(),
            out.as_mut_ptr(),
            out.len(),
            cells.as_mut_ptr(),
            cells.len(),
        )
    }
}

/// Starts the stream for a filter and a picture of these sides: sets the needed
/// cells to zero. Whatever `state` holds, it becomes the started state, or after
/// a refusal a state of zeros; refusals 1 to 5, then 8.
#[must_use = "a number other than 0 is a refusal"]
pub fn start(
    filter: &Filter,
    width: usize,
    height: usize,
    cells: &mut [u64],
    state: &mut State,
) -> u8 {
    let state: *mut State = state;
    // SAFETY: the pointer and the length are those of one slice, and the blocks
    // are fields of one state; both are lent to this call alone.
    unsafe {
        bore_start(
            filter,
            width,
            height,
            cells.as_mut_ptr(),
            cells.len(),
            &raw mut (*state).filter,
            (&raw mut (*state).width).cast(),
        )
    }
}

/// Gives the stream the next picture row and takes one grown row from it.
/// `count` becomes the count of additions and subtractions; refusals 9, 10,
/// then 6, 7, 8.
#[must_use = "a number other than 0 is a refusal"]
pub fn push(
    state: &mut State,
    pixels: &[u8],
    out: &mut [u64],
    cells: &mut [u64],
    count: &mut u64,
) -> u8 {
    let state: *mut State = state;
    // SAFETY: each pointer and the length after it are those of one slice, and
    // the blocks are fields of one state; it and the two slices that are written
    // are lent to this call alone.
    unsafe {
        bore_push(
            &raw const (*state).filter,
            (&raw mut (*state).width).cast(),
            pixels.as_ptr(),
            pixels.len(),
            out.as_mut_ptr(),
            out.len(),
            cells.as_mut_ptr(),
            cells.len(),
            count,
        )
    }
}

/// Takes one grown row from the stream when all picture rows are in. `count`
/// becomes the count of additions and subtractions; refusals 9, 10, then 7, 8.
#[must_use = "a number other than 0 is a refusal"]
pub fn drain(state: &mut State, out: &mut [u64], cells: &mut [u64], count: &mut u64) -> u8 {
    let state: *mut State = state;
    // SAFETY: each pointer and the length after it are those of one slice, and
    // the blocks are fields of one state; all are lent to this call alone.
    unsafe {
        bore_drain(
            &raw const (*state).filter,
            (&raw mut (*state).width).cast(),
            out.as_mut_ptr(),
            out.len(),
            cells.as_mut_ptr(),
            cells.len(),
            count,
        )
    }
}

/// The greys of a row of sums (document 01: rounding) and their leftovers, sum
/// less weight times grey (document 02), in two outputs of the same length, all by
/// the filter's weight; refusals 1 to 4, then 7, 11.
#[must_use = "a number other than 0 is a refusal"]
pub fn round(filter: &Filter, sums: &[u64], out: &mut [u8], leftovers: &mut [i64]) -> u8 {
    // SAFETY: each pointer and the length after it are those of one slice; the
    // two that are written are lent to this call alone.
    unsafe {
        bore_round(
            filter,
            sums.as_ptr(),
            sums.len(),
            out.as_mut_ptr(),
            out.len(),
            leftovers.as_mut_ptr(),
            leftovers.len(),
        )
    }
}

/// The greys of the picture's own places (document 01: the same-size blur) and
/// their leftovers, in two outputs of exactly the picture's size and with work
/// cells of at least twice the grown size. Both are by the inside weight of each
/// place (document 02): the exact sum there for a picture of the same sides whose
/// pixels are all 1; refusals 1 to 8.
#[must_use = "a number other than 0 is a refusal"]
pub fn blur(
    filter: &Filter,
    width: usize,
    height: usize,
    pixels: &[u8],
    out: &mut [u8],
    leftovers: &mut [i64],
    cells: &mut [u64],
) -> u8 {
    // SAFETY: each pointer and the length after it are those of one slice; the
    // three that are written are lent to this call alone.
    unsafe {
        bore_blur(
            filter,
            width,
            height,
            pixels.as_ptr(),
            pixels.len(),
            out.as_mut_ptr(),
            out.len(),
            leftovers.as_mut_ptr(),
            leftovers.len(),
            cells.as_mut_ptr(),
            cells.len(),
        )
    }
}

/// The rounded differences of `a` and `b` at the picture's own places, by the
/// weights of both filters, in an output of exactly the picture's size and with
/// work cells of at least twice both grown sizes together; refusals 1 to 4 of
/// `a`, those of `b`, then 5 to 8, 12, 13.
#[must_use = "a number other than 0 is a refusal"]
pub fn difference(
    a: &Filter,
    b: &Filter,
    width: usize,
    height: usize,
    pixels: &[u8],
    out: &mut [i16],
    cells: &mut [u64],
) -> u8 {
    // SAFETY: each pointer and the length after it are those of one slice; the
    // two that are written are lent to this call alone.
    unsafe {
        bore_difference(
            a,
            b,
            width,
            height,
            pixels.as_ptr(),
            pixels.len(),
            out.as_mut_ptr(),
            out.len(),
            cells.as_mut_ptr(),
            cells.len(),
        )
    }
}

/// The reading of the grey alone, with its leftover, both by the inside weight of
/// the place; refusals as for `sample`.
#[must_use = "a number other than 0 is a refusal"]
pub fn sample_gray(
    filter: &Filter,
    width: usize,
    height: usize,
    pixels: &[u8],
    (column, row): (usize, usize),
    gray: &mut u8,
    leftover: &mut i64,
) -> u8 {
    let (start, len) = (pixels.as_ptr(), pixels.len());
    // SAFETY: the pointer and the length are those of one slice.
    unsafe {
        bore_sample_gray(
            filter, width, height, start, len, column, row, gray, leftover,
        )
    }
}

/// The reading of the exact sum alone; refusals as for `sample`.
#[must_use = "a number other than 0 is a refusal"]
pub fn sample_sum(
    filter: &Filter,
    width: usize,
    height: usize,
    pixels: &[u8],
    (column, row): (usize, usize),
    sum: &mut u64,
) -> u8 {
    let (start, len) = (pixels.as_ptr(), pixels.len());
    // SAFETY: the pointer and the length are those of one slice.
    unsafe { bore_sample_sum(filter, width, height, start, len, column, row, sum) }
}

/// The reading of the quotient alone, the sum over the inside weight of the
/// place; refusals as for `sample`.
#[must_use = "a number other than 0 is a refusal"]
pub fn sample_mean(
    filter: &Filter,
    width: usize,
    height: usize,
    pixels: &[u8],
    (column, row): (usize, usize),
    mean: &mut f64,
) -> u8 {
    let (start, len) = (pixels.as_ptr(), pixels.len());
    // SAFETY: the pointer and the length are those of one slice.
    unsafe { bore_sample_mean(filter, width, height, start, len, column, row, mean) }
}

/// Reads a job. Whatever `job` holds, it becomes what the file says, with zeros
/// past the counts, or after a refusal a job of zeros; refusals 14 for fewer
/// than 7 bytes, mark or version, 1, 14 for lists and sides cut short, 2 to 5,
/// then 14 for any other length.
#[must_use = "a number other than 0 is a refusal"]
pub fn read_job(bytes: &[u8], job: &mut Job) -> u8 {
    let job: *mut Job = job;
    // SAFETY: the pointer and the length are those of one slice, and the blocks
    // are fields of one job, which is lent to this call alone.
    unsafe {
        bore_read_job(
            bytes.as_ptr(),
            bytes.len(),
            &raw mut (*job).filter,
            (&raw mut (*job).width).cast(),
        )
    }
}

/// The length of a job in bytes; refusals 1 to 5.
#[must_use = "a number other than 0 is a refusal"]
pub fn job_size(filter: &Filter, width: usize, height: usize, size: &mut usize) -> u8 {
    bore_job_size(filter, width, height, size)
}

/// The bytes of a job, in an output of exactly its length; refusals 1 to 7.
#[must_use = "a number other than 0 is a refusal"]
pub fn write_job(
    filter: &Filter,
    width: usize,
    height: usize,
    pixels: &[u8],
    out: &mut [u8],
) -> u8 {
    // SAFETY: each pointer and the length after it are those of one slice; the
    // one that is written is lent to this call alone.
    unsafe {
        bore_write_job(
            filter,
            width,
            height,
            pixels.as_ptr(),
            pixels.len(),
            out.as_mut_ptr(),
            out.len(),
        )
    }
}
