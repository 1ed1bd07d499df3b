//! Plain reference version of the bore wall picture filter of document 01, with
//! the fading ladder, the leftovers and the inside weights of document 02.
//!
//! Everything here follows the definitions of the papers word for word and
//! takes no short cuts: coefficients by multiplying polynomials, every sum as
//! the double sum over a and b, and on the ladder, level by level, as the plain
//! sum of what a box covers; an inside weight as the same double sum on a
//! picture of ones. It serves to be compared against.
//!
//! A refusal is `Err` with the paper's number. Where the paper lends an output
//! slice or work cells, a call here takes their lengths and returns the whole
//! content of the output when it accepts; a refused call writes nothing. Pixels,
//! greys and differences are plain numbers here, whatever they are lent as.

#![forbid(unsafe_code)]

pub mod greys;
pub mod job;
pub mod ladder;
pub mod picture;
pub mod random;
pub mod recipe;
pub mod stream;
pub mod triangle;

pub use greys::{
    difference, difference_cells, difference_of_sums, grey, inside_weight, inside_weights,
    leftover, reading, round_row, same_size_blur, same_size_cells, Choice, Reading, Rounded,
};
pub use job::{
    boresums, job_length, pixels_of, read_job, write_job, Job, PROGRAM_BYTES, PROGRAM_CELLS,
};
pub use ladder::{from_below, ladder, ladder_recipe, Axes, Grid, MOST_LEVEL};
pub use picture::{
    check_picture, direct, exact_sums, grown_size, pass_by_pass, DirectOutput, LARGEST_GREY,
};
pub use recipe::{
    boxes, check, check_sides, coefficients, coefficients_of, grown_sides, list_cells, list_cost,
    needed_cells, reach, row_cost, same, scale_card, weight, BoxFilter, Recipe, ScaleCard,
    MOST_REACH, MOST_SIDE, MOST_WEIGHT, MOST_WIDTHS,
};
pub use stream::{drain_refusal, row_refusal, start_refusal, Called, Started, State, Stream};
pub use triangle::TRIANGLE;
