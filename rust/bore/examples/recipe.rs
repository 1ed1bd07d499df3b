//! Prints what the library says of a recipe: its refusal, or its scale card, the coefficients of both
//! axes, and the buffers that a picture of a given size needs.
//!
//! Usage: recipe ROWS COLUMNS WIDTH HEIGHT, the lists as widths with commas, `-` for an empty list.

mod lists;
mod outcome;

use bore::{Cascade, Filter, Moments};
use lists::{filter, list};
use outcome::{accepted, end, refused, Outcome};
use std::process::ExitCode;

const USAGE: &str = "usage: recipe ROWS COLUMNS WIDTH HEIGHT, as in: recipe 2,2 3,3 640 480";

fn coefficients(list: &Cascade, order: usize) -> Result<String, u8> {
    let mut out = vec![0; order + 1];
    accepted(bore::kernel(list, &mut out))?;
    let words: Vec<String> = out.iter().map(u64::to_string).collect();
    Ok(words.join(" "))
}

/// The lines of a recipe, or its refusal.
pub fn describe(filter: &Filter, width: usize, height: usize) -> Result<String, u8> {
    let mut m = Moments::default();
    accepted(bore::moments(filter, &mut m))?;
    let (mut full_width, mut full_height, mut cells) = (0, 0, 0);
    accepted(bore::full_size(
        filter,
        width,
        height,
        &mut full_width,
        &mut full_height,
    ))?;
    accepted(bore::stream_cells(filter, width, &mut cells))?;
    let lines = [
        format!("weight {}", m.gain),
        format!("reaches {} {}", m.row_order, m.column_order),
        format!("variances {} {}", m.row_variance, m.column_variance),
        format!("R {}", coefficients(&filter.rows, m.row_order)?),
        format!("C {}", coefficients(&filter.columns, m.column_order)?),
        format!("grown size {full_width} {full_height}"),
        format!("cells {cells}"),
    ];
    Ok(lines.join("\n"))
}

/// The lists and the sides that are typed.
fn read(words: &[String]) -> Option<([Vec<u8>; 2], [usize; 2])> {
    let [rows, columns, width, height] = words else {
        return None;
    };
    let lists = [list(rows)?, list(columns)?];
    Some((lists, [width.parse().ok()?, height.parse().ok()?]))
}

/// What to print for the words of the command.
pub fn recipe(words: &[String]) -> Outcome {
    let ([rows, columns], [width, height]) = read(words).ok_or(USAGE)?;
    let filter = filter(&rows, &columns).map_err(refused)?;
    describe(&filter, width, height).map_err(refused)
}

fn main() -> ExitCode {
    let words: Vec<String> = std::env::args().skip(1).collect();
    end(recipe(&words))
}
