//! Reading and writing jobs in safe Rust.

// The benchmark and the program in Rust use a part of this each.
#![allow(dead_code)]

use crate::checks::weight_of;

/// Mark and version 1.
const HEAD: [u8; 5] = *b"BOR\x01\x00";
/// The most widths of a list.
const MOST_WIDTHS: u8 = 48;
/// The largest side.
const MOST_SIDE: usize = 1024;

/// A job as it stands in its file.
pub struct Job<'a> {
    pub lists: [&'a [u8]; 2],
    pub weight: u64,
    pub width: usize,
    pub height: usize,
    pub offset: usize,
}

fn check_sides(sides: [usize; 2]) -> Result<(), u8> {
    match sides.iter().all(|side| (1..=MOST_SIDE).contains(side)) {
        true => Ok(()),
        false => Err(5),
    }
}

pub fn read(bytes: &[u8]) -> Result<Job<'_>, u8> {
    let rest = bytes.strip_prefix(&HEAD).ok_or(14)?;
    let &[row_count, column_count, ref rest @ ..] = rest else {
        return Err(14);
    };
    if row_count > MOST_WIDTHS || column_count > MOST_WIDTHS {
        return Err(1);
    }
    let cut = rest.split_at_checked(row_count.into());
    let (rows, rest) = cut.ok_or(14)?;
    let cut = rest.split_at_checked(column_count.into());
    let (columns, rest) = cut.ok_or(14)?;
    let (sides, pixels) = rest.split_at_checked(4).ok_or(14)?;
    let lists = [rows, columns];
    let weight = weight_of(lists)?;
    let side = |at: usize| usize::from(u16::from_le_bytes([sides[at], sides[at + 1]]));
    let [width, height] = [side(0), side(2)];
    check_sides([width, height])?;
    if pixels.len() != width * height {
        return Err(14);
    }
    Ok(Job {
        lists,
        weight,
        width,
        height,
        offset: bytes.len() - pixels.len(),
    })
}

/// Writes a job whose lists have at most 48 widths each.
pub fn write(
    lists: [&[u8]; 2],
    sides: [usize; 2],
    pixels: &[u8],
    out: &mut [u8],
) -> Result<(), u8> {
    weight_of(lists)?;
    check_sides(sides)?;
    if pixels.len() != sides[0] * sides[1] {
        return Err(6);
    }
    let [rows, columns] = lists;
    if out.len() != 11 + rows.len() + columns.len() + pixels.len() {
        return Err(7);
    }
    let [width, height] = sides.map(|side| (side as u16).to_le_bytes());
    let counts = [rows.len() as u8, columns.len() as u8];
    let mut rest = out;
    for part in [&HEAD[..], &counts, rows, columns, &width, &height, pixels] {
        let (place, after) = rest.split_at_mut(part.len());
        place.copy_from_slice(part);
        rest = after;
    }
    Ok(())
}
