//! The lists of a recipe as they are typed: widths with commas, `-` for an empty list.

use bore::{Cascade, Filter};

/// The widths, if every word is a number from 0 to 255.
pub fn list(text: &str) -> Option<Vec<u8>> {
    if text == "-" {
        return Some(vec![]);
    }
    text.split(',').map(|word| word.parse().ok()).collect()
}

/// The recipe of two lists, or the refusal of a list that is too long.
pub fn filter(rows: &[u8], columns: &[u8]) -> Result<Filter, u8> {
    Ok(Filter {
        rows: Cascade::try_from(rows)?,
        columns: Cascade::try_from(columns)?,
    })
}
