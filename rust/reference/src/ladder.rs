//! The fading ladder of document 02, level by level: each level is worked from
//! the exact sums of the level below, every box by the plain sum of the places
//! that it covers.

use crate::picture::{check_picture, grown_size};
use crate::recipe::Recipe;

/// The widths of level 1.
const FIRST: [u8; 3] = [2, 3, 4];
/// The widths that levels 2 to 8 add in turn.
const ADDED: [u8; 7] = [6, 8, 12, 16, 24, 32, 48];
/// The highest level.
pub const MOST_LEVEL: usize = 8;

/// Which axes the widths are on.
#[derive(Clone, Copy, Debug, PartialEq, Eq)]
pub enum Axes {
    Rows,
    Both,
}

/// Numbers row by row: a picture, or the exact sums of a level.
#[derive(Clone, Debug, PartialEq, Eq)]
pub struct Grid {
    pub width: usize,
    pub height: usize,
    pub values: Vec<u64>,
}

/// The widths that a level, 1 to 8, has more than the level below.
fn new_widths(level: usize) -> &'static [u8] {
    match level {
        1 => &FIRST,
        _ => &ADDED[level - 2..level - 1],
    }
}

/// The whole recipe of a level; 16 for a level outside 1 to 8.
pub fn ladder_recipe(level: usize, axes: Axes) -> Result<Recipe, u8> {
    if !(1..=MOST_LEVEL).contains(&level) {
        return Err(16);
    }
    let mut widths = Vec::new();
    for below in 1..=level {
        widths.extend_from_slice(new_widths(below));
    }
    Ok(match axes {
        Axes::Rows => Recipe::new(&widths, &[]),
        Axes::Both => Recipe::new(&widths, &widths),
    })
}

/// The numbers of a box of width n on a line: at each place the sum of the n
/// numbers that end there. A number outside the line is 0.
fn boxed(line: &[u64], n: usize) -> Vec<u64> {
    let mut out = Vec::new();
    for last in 0..line.len() + n - 1 {
        let from = (last + 1).saturating_sub(n);
        let to = (last + 1).min(line.len());
        out.push(line[from..to].iter().sum());
    }
    out
}

impl Grid {
    fn boxed_along_rows(&self, n: usize) -> Grid {
        let mut values = Vec::new();
        for row in self.values.chunks(self.width) {
            values.extend(boxed(row, n));
        }
        Grid {
            width: self.width + n - 1,
            height: self.height,
            values,
        }
    }

    fn boxed_down_columns(&self, n: usize) -> Grid {
        let height = self.height + n - 1;
        let mut values = vec![0; self.width * height];
        for i in 0..self.width {
            let column = self.values.iter().skip(i).step_by(self.width);
            let column: Vec<u64> = column.copied().collect();
            for (j, sum) in boxed(&column, n).into_iter().enumerate() {
                values[j * self.width + i] = sum;
            }
        }
        Grid {
            width: self.width,
            height,
            values,
        }
    }
}

/// The sums of a level, 1 to 8, from those of the level below; level 1 is
/// worked from the picture.
pub fn from_below(level: usize, axes: Axes, below: &Grid) -> Grid {
    let mut sums = below.clone();
    for &n in new_widths(level) {
        sums = sums.boxed_along_rows(n.into());
        if axes == Axes::Both {
            sums = sums.boxed_down_columns(n.into());
        }
    }
    sums
}

/// The exact sums of a level: 16 for a level outside 1 to 8, before every other;
/// then the refusals of method 2 for the level's recipe, 1 to 8.
pub fn ladder(
    level: usize,
    axes: Axes,
    w: usize,
    h: usize,
    pixels: &[u64],
    out_len: usize,
    cells_len: usize,
) -> Result<Vec<u64>, u8> {
    let recipe = ladder_recipe(level, axes)?;
    check_picture(&recipe, w, h, pixels.len())?;
    let size = grown_size(&recipe, w, h)?;
    if out_len != size {
        return Err(7);
    }
    if cells_len < size {
        return Err(8);
    }
    let mut sums = Grid {
        width: w,
        height: h,
        values: pixels.to_vec(),
    };
    for level in 1..=level {
        sums = from_below(level, axes, &sums);
    }
    Ok(sums.values)
}
