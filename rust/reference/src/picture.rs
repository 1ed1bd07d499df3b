//! Exact sums of a picture by their definition, and the methods "pass by pass"
//! and "direct" as they look from outside: refusals and output.

use crate::recipe::{check_sides, coefficients_of, grown_sides, reach, Recipe};

/// The largest grey of a pixel, and of a sum that is rounded.
pub const LARGEST_GREY: u64 = 255;

/// Pixels stored row by row; outside them everything is 0. A pixel is a number
/// of at most the largest grey.
pub(crate) struct Picture<'a> {
    pub w: usize,
    pub h: usize,
    pub pixels: &'a [u64],
}

impl Picture<'_> {
    fn has_row(&self, y: i64) -> bool {
        y >= 0 && y < self.h as i64
    }

    fn pixel(&self, x: i64, y: i64) -> u128 {
        if x < 0 || x >= self.w as i64 || !self.has_row(y) {
            return 0;
        }
        u128::from(self.pixels[y as usize * self.w + x as usize])
    }

    /// The exact sum at grown column i, row j for row coefficients `r` and
    /// column coefficients `c`.
    pub fn sum(&self, r: &[u64], c: &[u64], i: usize, j: usize) -> u64 {
        let mut sum: u128 = 0;
        for (b, &c_b) in c.iter().enumerate() {
            let y = j as i64 - b as i64;
            if !self.has_row(y) {
                continue; // All pixels of this row are 0.
            }
            for (a, &r_a) in r.iter().enumerate() {
                let x = i as i64 - a as i64;
                sum += u128::from(r_a) * u128::from(c_b) * self.pixel(x, y);
            }
        }
        u64::try_from(sum).expect("an exact sum fits 52 bits")
    }
}

/// Refusals 1 to 6 for a recipe and a picture.
pub fn check_picture(recipe: &Recipe, w: usize, h: usize, pixels_len: usize) -> Result<(), u8> {
    check_sides(recipe, w, h)?;
    if pixels_len != w * h {
        return Err(6);
    }
    Ok(())
}

/// The number of sums of the grown picture; refusals 1 to 5.
pub fn grown_size(recipe: &Recipe, w: usize, h: usize) -> Result<usize, u8> {
    let (width, height) = grown_sides(recipe, w, h)?;
    Ok(width * height)
}

/// All exact sums, grown row by grown row; refusals 1 to 6.
pub fn exact_sums(recipe: &Recipe, w: usize, h: usize, pixels: &[u64]) -> Result<Vec<u64>, u8> {
    check_picture(recipe, w, h, pixels.len())?;
    let r = coefficients_of(&recipe.rows);
    let c = coefficients_of(&recipe.columns);
    let picture = Picture { w, h, pixels };
    let (width, height) = grown_sides(recipe, w, h)?;
    let mut sums = Vec::new();
    for j in 0..height {
        for i in 0..width {
            sums.push(picture.sum(&r, &c, i, j));
        }
    }
    Ok(sums)
}

/// Method 2: refusals 1 to 6, then 7 for an output of another length than the
/// grown size, then 8 for fewer work cells than that.
pub fn pass_by_pass(
    recipe: &Recipe,
    w: usize,
    h: usize,
    pixels: &[u64],
    out_len: usize,
    cells_len: usize,
) -> Result<Vec<u64>, u8> {
    check_picture(recipe, w, h, pixels.len())?;
    let size = grown_size(recipe, w, h)?;
    if out_len != size {
        return Err(7);
    }
    if cells_len < size {
        return Err(8);
    }
    exact_sums(recipe, w, h, pixels)
}

/// What the direct method leaves in its three slices.
#[derive(Clone, Debug, PartialEq, Eq)]
pub struct DirectOutput {
    pub r: Vec<u64>,
    pub c: Vec<u64>,
    pub sums: Vec<u64>,
}

/// Method 3: refusals 1 to 6, then 7 if one of the three slices has another
/// length than rx + 1, ry + 1 and the grown size.
pub fn direct(
    recipe: &Recipe,
    w: usize,
    h: usize,
    pixels: &[u64],
    r_len: usize,
    c_len: usize,
    out_len: usize,
) -> Result<DirectOutput, u8> {
    check_picture(recipe, w, h, pixels.len())?;
    let wrong_r = r_len != reach(&recipe.rows) + 1;
    let wrong_c = c_len != reach(&recipe.columns) + 1;
    if wrong_r || wrong_c || out_len != grown_size(recipe, w, h)? {
        return Err(7);
    }
    Ok(DirectOutput {
        r: coefficients_of(&recipe.rows),
        c: coefficients_of(&recipe.columns),
        sums: exact_sums(recipe, w, h, pixels)?,
    })
}
