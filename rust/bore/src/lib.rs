//! Safe wrapper over the static library of the bore wall picture filter of
//! document 01, with the fading ladder, the leftovers and the inside weights of
//! document 02.
//!
//! Every call returns the papers' refusal number, 0 where it is accepted, and
//! writes its values to what the caller lends; `refusal_text` gives the words of
//! a number. A refused call writes nothing, but for the state of a refused start,
//! the count of a refused push or drain and the job of a refused `read_job`,
//! which become zeros. The calls stand in `raw`, each beside the declaration of
//! the function that it calls.
//!
//! The inside weight at a place of a picture is the exact sum that the blur takes
//! there for a picture of the same sides whose pixels are all 1. Greys, leftovers
//! and quotients of a place (`blur`, `sample`, `sample_gray`, `sample_mean`) are
//! by its inside weight: no grey of a place is below the least or above the
//! greatest pixel, and raising any pixels lowers none. `round` and `difference`
//! are by the filter's weight.

#![deny(unsafe_code)]

/// The library's functions as they are, for callers that need pointers, and a
/// safe form of each.
pub mod raw;

pub use raw::{
    blur, check, difference, direct, drain, equivalent, full_size, job_size, kernel, ladder_both,
    ladder_rows, moments, passes, push, read_job, round, sample_gray, sample_mean, sample_sum,
    start, stream_cells, write_job,
};

/// The widths of one axis (document 01: a row list or a column list). Only the
/// first `count` of the 48 bytes have a meaning; a count above 48 is refused.
/// Its 49 bytes are the block by which a list crosses to the library. It has no
/// equality: bytes past the count have no meaning, and lists that differ can be
/// the same filter, which `equivalent` tells.
#[derive(Clone, Copy, Debug)]
#[repr(C)]
pub struct Cascade {
    pub count: u8,
    pub widths: [u8; 48],
}

impl Cascade {
    /// The widths up to the count; all 48 where the count is above 48, which
    /// every call refuses by 1.
    pub fn as_slice(&self) -> &[u8] {
        let count = usize::from(self.count);
        self.widths.get(..count).unwrap_or(&self.widths)
    }
}

/// A list of at most 48 widths, with zeros past them; a longer one is refused
/// by 1, document 01's number for it.
impl TryFrom<&[u8]> for Cascade {
    type Error = u8;

    fn try_from(list: &[u8]) -> Result<Cascade, u8> {
        let mut widths = [0; 48];
        let first = widths.get_mut(..list.len()).ok_or(1)?;
        first.copy_from_slice(list);
        let count = list.len() as u8;
        Ok(Cascade { count, widths })
    }
}

/// The widths of both axes (document 01: a recipe). Its 98 bytes are the block by
/// which a recipe crosses to the library. It has no equality: whether two filters
/// are the same is what `equivalent` tells.
#[derive(Clone, Copy, Debug)]
#[repr(C)]
pub struct Filter {
    pub rows: Cascade,
    pub columns: Cascade,
}

/// Gain, orders and variances of a filter (document 01: the scale card with
/// weight, reaches and variances).
#[derive(Clone, Copy, Debug, Default, PartialEq)]
pub struct Moments {
    pub gain: u64,
    pub row_order: usize,
    pub column_order: usize,
    pub row_variance: f64,
    pub column_variance: f64,
}

/// The state of the stream (document 01: the one pass) between two calls: the
/// filter, the sides of the picture and the rows yielded. It has no equality, as
/// its filter has none.
#[derive(Clone, Copy, Debug)]
#[repr(C)]
pub struct State {
    pub filter: Filter,
    pub width: usize,
    pub height: usize,
    pub emitted: usize,
}

/// What reading a job gives: the filter, the sides of the picture, and the
/// offset at which the pixels begin. It has no equality, as its filter has none.
#[derive(Clone, Copy, Debug)]
#[repr(C)]
pub struct Job {
    pub filter: Filter,
    pub width: usize,
    pub height: usize,
    pub offset: usize,
}

/// Which value a reading gives (document 01: the grey, the exact sum or the
/// quotient, by choice).
#[derive(Clone, Copy, Debug, PartialEq, Eq)]
pub enum Quantity {
    Gray,
    Sum,
    Mean,
}

/// The value that a reading gives: the grey with its leftover, the exact sum, or
/// the quotient of sum and inside weight. Grey and leftover are by the inside
/// weight too.
#[derive(Clone, Copy, Debug, PartialEq)]
pub enum Sample {
    Gray { gray: u8, leftover: i64 },
    Sum(u64),
    Mean(f64),
}

/// The reading at one place of the picture, a column and a row, by choice. The
/// sum is the one that the blur takes there; grey, leftover and quotient are by
/// the inside weight of the place; refusals 1 to 6, then 15.
#[must_use = "a number other than 0 is a refusal"]
pub fn sample(
    filter: &Filter,
    width: usize,
    height: usize,
    pixels: &[u8],
    place: (usize, usize),
    quantity: Quantity,
    sample: &mut Sample,
) -> u8 {
    let (mut gray, mut leftover, mut sum, mut mean) = (0, 0, 0, 0.0);
    let number = match quantity {
        Quantity::Gray => {
            let (gray, leftover) = (&mut gray, &mut leftover);
            sample_gray(filter, width, height, pixels, place, gray, leftover)
        }
        Quantity::Sum => sample_sum(filter, width, height, pixels, place, &mut sum),
        Quantity::Mean => sample_mean(filter, width, height, pixels, place, &mut mean),
    };
    if number == 0 {
        *sample = match quantity {
            Quantity::Gray => Sample::Gray { gray, leftover },
            Quantity::Sum => Sample::Sum(sum),
            Quantity::Mean => Sample::Mean(mean),
        };
    }
    number
}

/// The axes on which a level of the fading ladder has its widths (document 02:
/// rows only or both axes).
#[derive(Clone, Copy, Debug, PartialEq, Eq)]
pub enum Axes {
    /// The widths along the rows, and none along the columns.
    Rows,
    /// The widths along the rows, and the same along the columns.
    Both,
}

/// The exact sums of a level of the fading ladder, worked level by level. Level
/// 1 has the widths 2, 3, 4, and levels 2 to 8 add 6, 8, 12, 16, 24, 32, 48 in
/// turn. The sums are those that `passes` gives for a filter of these widths, in
/// an output of exactly its grown size and with at least as many work cells;
/// refusals 16 for a level outside 1 to 8, then 4 for levels 6 to 8 on both
/// axes, then 5 to 8.
#[must_use = "a number other than 0 is a refusal"]
pub fn ladder(
    level: usize,
    axes: Axes,
    width: usize,
    height: usize,
    pixels: &[u8],
    out: &mut [u64],
    cells: &mut [u64],
) -> u8 {
    match axes {
        Axes::Rows => ladder_rows(level, width, height, pixels, out, cells),
        Axes::Both => ladder_both(level, width, height, pixels, out, cells),
    }
}

/// The words of a refusal number; those of 0 are "accepted".
pub fn refusal_text(number: u8) -> &'static str {
    match number {
        0 => "accepted",
        1 => "a list is longer than 48 widths",
        2 => "a width is 0",
        3 => "a reach is above 255",
        4 => "the weight is above 2^44",
        5 => "a side of the picture is 0 or above 1024",
        6 => "the pixels are not as many as the row or the picture has",
        7 => "an output has another length than the call asks for",
        8 => "there are fewer work cells than the call needs",
        9 => "not a state: its recipe or sides would be refused, or more rows are yielded than there are",
        10 => "a row when all are in, a drain before that, or a drain when all rows are out",
        11 => "a sum is above 255 times the weight",
        12 => "the reaches of the two recipes differ in parity on an axis",
        13 => "the product of the two weights is above 2^44",
        14 => "the mark, the version or the length of the job is wrong",
        15 => "the place is outside the picture",
        16 => "the level is outside 1 to 8",
        _ => "no number of this library",
    }
}
