//! Rounding to greys and what it leaves over, the same-size blur, the difference
//! of two recipes and the reading at one place. Greys, leftovers and quotients of
//! a picture place are by its inside weight, the rounding of a row and the
//! difference by the weight of the recipe.

use crate::picture::{check_picture, grown_size, Picture, LARGEST_GREY};
use crate::recipe::{accepted_weight, check, coefficients_of, reach, weight, Recipe, MOST_WEIGHT};

/// (sum + weight / 2) / weight, both divisions downwards, for a sum of at most
/// the largest grey times the weight.
pub fn grey(sum: u64, weight: u64) -> u64 {
    assert!(
        sum <= LARGEST_GREY * weight,
        "{sum} is above {weight} times the largest grey"
    );
    (sum + weight / 2) / weight
}

/// Sum minus weight times grey.
pub fn leftover(sum: u64, weight: u64) -> i64 {
    let value = i128::from(sum) - i128::from(weight) * i128::from(grey(sum, weight));
    i64::try_from(value).expect("a leftover is at most half a weight in size")
}

/// The greys of some sums, and the leftover of each.
#[derive(Clone, Debug, PartialEq, Eq)]
pub struct Rounded {
    pub greys: Vec<u64>,
    pub leftovers: Vec<i64>,
}

/// Each sum rounded by the weight that stands in its place.
fn rounded(sums: &[u64], weights: &[u64]) -> Rounded {
    let (mut greys, mut leftovers) = (Vec::new(), Vec::new());
    for (&sum, &weight) in sums.iter().zip(weights) {
        greys.push(grey(sum, weight));
        leftovers.push(leftover(sum, weight));
    }
    Rounded { greys, leftovers }
}

/// A row of sums rounded: refusals 1 to 4, then 7 for an output of another
/// length than the row, be it that of the greys or that of the leftovers, then
/// 11 for a sum above the largest grey times the weight.
pub fn round_row(recipe: &Recipe, sums: &[u64], out_lens: [usize; 2]) -> Result<Rounded, u8> {
    check(recipe)?;
    if out_lens != [sums.len(); 2] {
        return Err(7);
    }
    let weight = accepted_weight(recipe);
    if sums.iter().any(|&sum| sum > LARGEST_GREY * weight) {
        return Err(11);
    }
    Ok(rounded(sums, &vec![weight; sums.len()]))
}

/// The exact sum that the same-size blur takes for picture place (x, y), from
/// the row coefficients `r` and the column coefficients `c`.
fn same_size_sum(picture: &Picture, r: &[u64], c: &[u64], x: usize, y: usize) -> u64 {
    let rx = r.len() - 1;
    let ry = c.len() - 1;
    picture.sum(r, c, x + rx / 2, y + ry / 2)
}

/// The sums that the same-size blur takes, row by row.
fn same_size_sums(recipe: &Recipe, w: usize, h: usize, pixels: &[u64]) -> Vec<u64> {
    let r = coefficients_of(&recipe.rows);
    let c = coefficients_of(&recipe.columns);
    let picture = Picture { w, h, pixels };
    let mut sums = Vec::new();
    for y in 0..h {
        for x in 0..w {
            sums.push(same_size_sum(&picture, &r, &c, x, y));
        }
    }
    sums
}

/// The inside weights of an accepted recipe at the places of a picture, row by
/// row: at each the exact sum that the same-size blur takes there for a picture
/// of the same sides whose pixels are all 1.
pub fn inside_weights(recipe: &Recipe, w: usize, h: usize) -> Vec<u64> {
    same_size_sums(recipe, w, h, &vec![1; w * h])
}

/// The inside weight of an accepted recipe at one picture place.
pub fn inside_weight(recipe: &Recipe, w: usize, h: usize, place: (usize, usize)) -> u64 {
    let r = coefficients_of(&recipe.rows);
    let c = coefficients_of(&recipe.columns);
    let pixels = &vec![1; w * h];
    same_size_sum(&Picture { w, h, pixels }, &r, &c, place.0, place.1)
}

/// The work cells of the same-size blur: twice the grown size; refusals 1 to 5.
pub fn same_size_cells(recipe: &Recipe, w: usize, h: usize) -> Result<usize, u8> {
    Ok(2 * grown_size(recipe, w, h)?)
}

/// The same-size blur, with outputs for the greys and for the leftovers, both by
/// the inside weights: refusals 1 to 8.
pub fn same_size_blur(
    recipe: &Recipe,
    w: usize,
    h: usize,
    pixels: &[u64],
    out_lens: [usize; 2],
    cells_len: usize,
) -> Result<Rounded, u8> {
    check_picture(recipe, w, h, pixels.len())?;
    if out_lens != [w * h; 2] {
        return Err(7);
    }
    if cells_len < same_size_cells(recipe, w, h)? {
        return Err(8);
    }
    let sums = same_size_sums(recipe, w, h, pixels);
    Ok(rounded(&sums, &inside_weights(recipe, w, h)))
}

/// The work cells of a difference: twice both grown sizes together; the
/// refusals 1 to 4 of `a`, those of `b`, then 5.
pub fn difference_cells(a: &Recipe, b: &Recipe, w: usize, h: usize) -> Result<usize, u8> {
    check(a)?;
    check(b)?;
    Ok(2 * (grown_size(a, w, h)? + grown_size(b, w, h)?))
}

/// Refusals 12 and 13 of a difference of two accepted recipes.
fn check_pair(a: &Recipe, b: &Recipe) -> Result<(), u8> {
    let rows_agree = reach(&a.rows) % 2 == reach(&b.rows) % 2;
    let columns_agree = reach(&a.columns) % 2 == reach(&b.columns) % 2;
    if !rows_agree || !columns_agree {
        return Err(12);
    }
    if weight(a) * weight(b) > MOST_WEIGHT {
        return Err(13);
    }
    Ok(())
}

/// The quotient rounded to the nearest whole number, a half away from zero.
fn nearest(numerator: i128, denominator: i128) -> i128 {
    let size = (2 * numerator.abs() + denominator) / (2 * denominator);
    size * numerator.signum()
}

/// (sum_a times weight_b - sum_b times weight_a) over weight_a times weight_b,
/// rounded to the nearest whole number, a half away from zero. Each sum is at
/// most the largest grey times its weight.
pub fn difference_of_sums(sum_a: u64, weight_a: u64, sum_b: u64, weight_b: u64) -> i64 {
    let [sum_a, weight_a, sum_b, weight_b] = [sum_a, weight_a, sum_b, weight_b].map(i128::from);
    let numerator = sum_a * weight_b - sum_b * weight_a;
    let value = nearest(numerator, weight_a * weight_b);
    i64::try_from(value).expect("a difference is at most the largest grey in size")
}

/// The difference of recipes `a` and `b` on one picture: the refusals 1 to 4 of
/// `a`, those of `b`, then 5, 6, 7, 8, 12, 13.
pub fn difference(
    a: &Recipe,
    b: &Recipe,
    w: usize,
    h: usize,
    pixels: &[u64],
    out_len: usize,
    cells_len: usize,
) -> Result<Vec<i64>, u8> {
    check(a)?;
    check(b)?;
    check_picture(a, w, h, pixels.len())?;
    if out_len != w * h {
        return Err(7);
    }
    if cells_len < difference_cells(a, b, w, h)? {
        return Err(8);
    }
    check_pair(a, b)?;
    let (weight_a, weight_b) = (accepted_weight(a), accepted_weight(b));
    let sums_a = same_size_sums(a, w, h, pixels);
    let sums_b = same_size_sums(b, w, h, pixels);
    let mut out = Vec::new();
    for (sum_a, sum_b) in sums_a.into_iter().zip(sums_b) {
        out.push(difference_of_sums(sum_a, weight_a, sum_b, weight_b));
    }
    Ok(out)
}

/// Which of the three values a reading gives.
#[derive(Clone, Copy, Debug, PartialEq, Eq)]
pub enum Choice {
    Grey,
    Sum,
    Quotient,
}

/// The value of a reading: the grey and its leftover, the exact sum, or the
/// quotient of sum and inside weight.
#[derive(Clone, Copy, Debug, PartialEq)]
pub enum Reading {
    Grey(u64, i64),
    Sum(u64),
    Quotient(f64),
}

/// The reading at picture place (x, y): refusals 1 to 6, then 15.
pub fn reading(
    recipe: &Recipe,
    w: usize,
    h: usize,
    pixels: &[u64],
    place: (usize, usize),
    choice: Choice,
) -> Result<Reading, u8> {
    check_picture(recipe, w, h, pixels.len())?;
    if place.0 >= w || place.1 >= h {
        return Err(15);
    }
    let r = coefficients_of(&recipe.rows);
    let c = coefficients_of(&recipe.columns);
    let sum = same_size_sum(&Picture { w, h, pixels }, &r, &c, place.0, place.1);
    let inside = || inside_weight(recipe, w, h, place);
    Ok(match choice {
        Choice::Grey => {
            let inside = inside();
            Reading::Grey(grey(sum, inside), leftover(sum, inside))
        }
        Choice::Sum => Reading::Sum(sum),
        // Both are below 2^53, so they are exact as 64-bit floats.
        Choice::Quotient => Reading::Quotient(sum as f64 / inside() as f64),
    })
}
