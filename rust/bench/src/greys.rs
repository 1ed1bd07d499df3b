//! Rounding, the same-size blur and the difference in safe Rust: the one pass
//! goes row by row through one row of sums, whose middle part is rounded into the
//! output, or for a blur, by the inside weights of `rims`, into both.

use crate::gray_work::{Blur, Difference, Recipe, Rounding};
use crate::rims::{axis_weights, Band};
use crate::stages::{next_row, MOST_WIDTH};
use crate::work::reach;

/// The one pass of a recipe over a picture, with one row of sums.
struct Pass<'a> {
    recipe: &'a Recipe,
    pixels: &'a [u8],
    side: usize,
    emitted: usize,
    row: [u64; MOST_WIDTH],
    cells: &'a mut [u64],
}

impl<'a> Pass<'a> {
    /// Starts with just the needed cells, and goes past the grown rows that come
    /// before those of the picture's own places.
    fn new(recipe: &'a Recipe, pixels: &'a [u8], side: usize, cells: &'a mut [u64]) -> Pass<'a> {
        cells.fill(0);
        let mut pass = Pass {
            recipe,
            pixels,
            side,
            emitted: 0,
            row: [0; MOST_WIDTH],
            cells,
        };
        for _ in 0..reach(&recipe.columns) / 2 {
            pass.next();
        }
        pass
    }

    /// The middle part of the next grown row.
    fn next(&mut self) -> &[u64] {
        let Recipe { rows, columns, .. } = self.recipe;
        let from = self.emitted * self.side;
        let pixels = self.pixels.get(from..from + self.side).unwrap_or(&[]);
        let row = &mut self.row[..self.recipe.full_width];
        next_row([rows, columns], self.emitted, pixels, row, self.cells);
        self.emitted += 1;
        &row[reach(rows) / 2..][..self.side]
    }
}

/// 2 to this power stands for 1 in a reciprocal.
const RECIPROCAL_BITS: u32 = 55;

/// A weight to divide by: its half, downwards, and 2^55 over it, downwards.
pub struct Divisor {
    pub weight: u64,
    half: u64,
    reciprocal: u64,
}

impl Divisor {
    pub fn new(weight: u64) -> Divisor {
        Divisor {
            weight,
            half: weight / 2,
            reciprocal: (1 << RECIPROCAL_BITS) / weight,
        }
    }

    /// The shift that divides by a weight with a single bit set.
    fn shift(&self) -> Option<u32> {
        let single = self.weight.is_power_of_two();
        single.then(|| self.weight.trailing_zeros())
    }

    fn by_shift(&self, shift: u32, sum: u64) -> u64 {
        (sum + self.half) >> shift
    }

    /// The estimate is the quotient or one less, and the next multiple of the
    /// weight tells which. The outcome is added, so that no branch hangs on the
    /// sum.
    pub fn by_reciprocal(&self, sum: u64) -> u64 {
        let raised = sum + self.half;
        let estimate = (raised * self.reciprocal) >> RECIPROCAL_BITS;
        let next = (estimate + 1) * self.weight;
        estimate + u64::from(next <= raised)
    }
}

/// Each sum over the weight, and what is left of it without so many weights.
fn round_each(
    sums: &[u64],
    (out, leftovers): (&mut [u8], &mut [i64]),
    rounded: impl Fn(u64) -> u64,
    weights: impl Fn(u64) -> u64,
) {
    for ((out, leftover), &sum) in out.iter_mut().zip(leftovers).zip(sums) {
        let gray = rounded(sum);
        *out = gray as u8;
        *leftover = sum as i64 - weights(gray) as i64;
    }
}

/// A weight with a single bit set is divided by a shift, and multiplied by one.
pub fn round(by: &Divisor, sums: &[u64], outputs: (&mut [u8], &mut [i64])) {
    match by.shift() {
        Some(shift) => {
            let rounded = |sum| by.by_shift(shift, sum);
            round_each(sums, outputs, rounded, |gray| gray << shift)
        }
        None => {
            let rounded = |sum| by.by_reciprocal(sum);
            round_each(sums, outputs, rounded, |gray| gray * by.weight)
        }
    }
}

/// All sums are looked at before the first is rounded. No branch hangs on a sum.
pub fn round_row(work: &mut Rounding) {
    let most = 255 * work.recipe.weight;
    let above = |found: bool, &sum: &u64| found | (sum > most);
    assert!(!work.sums.iter().fold(false, above), "a sum is too bright");
    let by = Divisor::new(work.recipe.weight);
    round(&by, &work.sums, (&mut work.out, &mut work.leftovers));
}

pub fn blur(work: &mut Blur) {
    let recipe = &work.recipe;
    let cells = &mut work.cells[..recipe.needed];
    let mut pass = Pass::new(recipe, &work.pixels, work.side, cells);
    let down = axis_weights(&recipe.columns, work.side);
    let mut band = Band::new(&axis_weights(&recipe.rows, work.side));
    let rows = work.out.chunks_exact_mut(work.side);
    let rows = rows.zip(work.leftovers.chunks_exact_mut(work.side));
    for (outputs, down) in rows.zip(down) {
        band.set_down(down);
        band.round(pass.next(), outputs);
    }
}

/// The rounded size of each difference, with its sign. No branch hangs on the
/// sign: all bits of `sign` are set for a negative one, and none for others.
fn subtract_each(
    [a, b]: [&[u64]; 2],
    [weight_a, weight_b]: [u64; 2],
    out: &mut [i16],
    rounded: impl Fn(u64) -> u64,
) {
    for ((out, &a), &b) in out.iter_mut().zip(a).zip(b) {
        let (a, b) = (a * weight_b, b * weight_a);
        let size = rounded(a.abs_diff(b)) as i16;
        let sign = -i16::from(a < b);
        *out = (size ^ sign) - sign;
    }
}

/// A product of weights with a single bit set is divided by a shift.
fn subtract(sums: [&[u64]; 2], weights: [u64; 2], by: &Divisor, out: &mut [i16]) {
    match by.shift() {
        Some(shift) => subtract_each(sums, weights, out, |size| by.by_shift(shift, size)),
        None => subtract_each(sums, weights, out, |size| by.by_reciprocal(size)),
    }
}

pub fn difference(work: &mut Difference) {
    let (a, b) = (&work.a, &work.b);
    let (cells_a, cells_b) = work.cells.split_at_mut(a.needed);
    let mut pass_a = Pass::new(a, &work.pixels, work.side, cells_a);
    let mut pass_b = Pass::new(b, &work.pixels, work.side, &mut cells_b[..b.needed]);
    let weights = [a.weight, b.weight];
    let by = Divisor::new(a.weight * b.weight);
    for out in work.out.chunks_exact_mut(work.side) {
        let sums = [pass_a.next(), pass_b.next()];
        subtract(sums, weights, &by, out);
    }
}
