//! Prints whether two recipes are equal, or the refusal.
//!
//! Usage: compare ROWS COLUMNS ROWS COLUMNS, the lists as widths with commas, `-` for an empty list.

mod lists;
mod outcome;

use lists::{filter, list};
use outcome::{accepted, end, refused, Outcome};
use std::process::ExitCode;

const USAGE: &str = "usage: compare ROWS COLUMNS ROWS COLUMNS, as in: compare 2,6,6 - 3,3,8 -";

/// The answer on two recipes, each the lists of its rows and columns, or the refusal.
pub fn answer(a: [&[u8]; 2], b: [&[u8]; 2]) -> Result<&'static str, u8> {
    let a = filter(a[0], a[1])?;
    // Any refusal of the first comes before those of the second.
    accepted(bore::check(&a))?;
    let b = filter(b[0], b[1])?;
    let mut same = 0;
    accepted(bore::equivalent(&a, &b, &mut same))?;
    Ok(if same == 1 { "equal" } else { "not equal" })
}

/// What to print for the words of the command.
pub fn compare(words: &[String]) -> Outcome {
    let lists: Option<Vec<Vec<u8>>> = words.iter().map(|word| list(word)).collect();
    let Some([a_rows, a_columns, b_rows, b_columns]) = lists.as_deref() else {
        return Err(USAGE.to_string());
    };
    let answer = answer([a_rows, a_columns], [b_rows, b_columns]);
    answer.map(str::to_string).map_err(refused)
}

fn main() -> ExitCode {
    let words: Vec<String> = std::env::args().skip(1).collect();
    end(compare(&words))
}
