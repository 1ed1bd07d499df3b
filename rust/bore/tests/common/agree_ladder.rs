//! The fading ladder: random levels, the lengths that a level asks for, and the
//! call beside the reference.

use super::agree::number;
use super::lent::Lent;
use super::narrow;
use super::pictures::Picture;
use bore::Axes;
use reference::random::Random;
use reference::{reach, Recipe};

/// Levels that are refused. Some are 1 or 8 modulo 2^8, 2^16, 2^32 or 2^63.
pub const OUTSIDE: [usize; 14] = [
    0,
    9,
    10,
    255,
    256,
    257,
    264,
    (1 << 16) + 1,
    1 << 32,
    (1 << 32) + 1,
    (1 << 32) + 8,
    (1 << 63) + 1,
    usize::MAX - 254,
    usize::MAX,
];

/// A level of which one in eight is refused.
pub fn any_level(random: &mut Random) -> usize {
    let large = random.word() as usize | 1 << 8;
    let outside = random.one_of(&OUTSIDE);
    match random.between(0, 15) {
        0 => random.one_of(&[0, 9, large]),
        1 => outside,
        _ => random.between(1, 8),
    }
}

/// The reference's form of the axes.
pub fn reference_axes(axes: Axes) -> reference::Axes {
    match axes {
        Axes::Rows => reference::Axes::Rows,
        Axes::Both => reference::Axes::Both,
    }
}

/// The recipe of a level; for a level that is refused, that of any level.
pub fn some_recipe(random: &mut Random, level: usize, axes: Axes) -> Recipe {
    let axes = reference_axes(axes);
    let any = random.between(1, 8);
    reference::ladder_recipe(level, axes)
        .or_else(|_| reference::ladder_recipe(any, axes))
        .expect("levels 1 to 8 have a recipe")
}

/// The grown size of accepted sides, also where the recipe is too heavy.
pub fn size(recipe: &Recipe, width: usize, height: usize) -> usize {
    (width + reach(&recipe.rows)) * (height + reach(&recipe.columns))
}

/// The call with an output and work cells of these lengths: compares the number
/// and all that was lent, and returns the number. Of an accepted call's cells as
/// many are free as there are sums.
pub fn ladder(
    random: &mut Random,
    level: usize,
    axes: Axes,
    picture: &Picture,
    lengths: [usize; 2],
) -> u8 {
    let [out_len, cells_len] = lengths;
    let (width, height) = (picture.width, picture.height);
    let pixels = &picture.pixels;
    let by_reference = reference_axes(axes);
    let expected = reference::ladder(
        level,
        by_reference,
        width,
        height,
        pixels,
        out_len,
        cells_len,
    );
    let pixels = Lent::bytes(random, &narrow(pixels));
    let lent = lengths.map(|length| Lent::words(random, length));
    let (mut left, mut found, given) = (lent.clone(), lent, pixels.clone());
    let [out, cells] = found.each_mut().map(Lent::part_mut);
    let refusal = bore::ladder(level, axes, width, height, given.part(), out, cells);
    let note = format_args!("level {level}, {axes:?}, {width} by {height}, lengths {lengths:?}");
    assert_eq!(refusal, number(&expected), "ladder, {note}");
    if let Ok(sums) = &expected {
        left[0].set(sums);
        left[1].set(&found[1].part()[..out_len]);
    }
    found[0].has_to_be(&left[0], "sums", note);
    found[1].has_to_be(&left[1], "cells", note);
    given.has_to_be(&pixels, "pixels", note);
    refusal
}
