//! Random filters, sides, pictures and lengths for the calls on pictures.
//!
//! The reference forms every sum as it is defined, so its work grows fast with
//! the reaches: the sides are made smaller where they would make it too long.

use super::{any_filter, filter_of, recipe_of, refilled, Case};
use bore::Filter;
use reference::random::Random;
use reference::{BoxFilter, Recipe, LARGEST_GREY};

/// A picture for the library and the reference. Its slice of pixels may have a
/// wrong length.
#[derive(Clone, Debug)]
pub struct Picture {
    pub width: usize,
    pub height: usize,
    pub pixels: Vec<u64>,
}

impl Picture {
    /// A picture of these sides with this many random pixels.
    pub fn random(random: &mut Random, width: usize, height: usize, pixels: usize) -> Picture {
        Picture {
            width,
            height,
            pixels: random.pixels(pixels),
        }
    }
}

/// Sides of which one is refused. The product of some is 0, 1 or 15 modulo
/// 2^64.
pub const REFUSED: [(usize, usize); 12] = [
    (0, 0),
    (0, 3),
    (5, 0),
    (1025, 3),
    (5, 1025),
    (1025, 1025),
    (usize::MAX, 3),
    (5, usize::MAX),
    (usize::MAX, usize::MAX),
    (1 << 32, 1 << 32),
    (5, (1 << 63) + 3),
    (15, 1 << 60),
];

/// The products that the reference may form for one picture, if its sides can
/// be chosen so.
const MOST_PRODUCTS: usize = 100_000;

/// The products that the reference forms for all sums of a picture.
pub fn products(recipe: &Recipe, width: usize, height: usize) -> usize {
    let row_reach = reference::reach(&recipe.rows);
    let column_reach = reference::reach(&recipe.columns);
    (width + row_reach) * (row_reach + 1) * height * (column_reach + 1)
}

/// A filter that is mostly accepted and has small reaches; some at the limits
/// of weight, reach and length, and some refused.
fn drawn_filter(random: &mut Random) -> Filter {
    let recipe = match random.between(0, 31) {
        0..=12 => random.valid_recipe(12),
        13..=17 => random.valid_recipe(40),
        18..=19 => random.valid_recipe(255),
        20..=21 => random.recipe_of_full_weight(),
        22 => random.recipe_just_below(),
        23..=24 => random.recipe_of_reach(255),
        25..=26 => random.recipe_of_length(48),
        _ => return any_filter(random),
    };
    refilled(random, &filter_of(&recipe))
}

/// Such a filter; of those with long reaches on both axes most lose an axis.
pub fn picture_filter(random: &mut Random) -> Filter {
    let mut filter = drawn_filter(random);
    let recipe = recipe_of(&filter);
    let long = reference::check(&recipe).is_ok() && products(&recipe, 1, 1) > MOST_PRODUCTS;
    if long && random.between(0, 15) > 0 {
        if random.coin() {
            filter.rows.count = 0;
        } else {
            filter.columns.count = 0;
        }
    }
    filter
}

/// The random case of a seed for a call on a picture.
pub fn picture_case(seed: u64) -> (Case, Random) {
    Case::drawn(seed, picture_filter)
}

/// Accepted sides, mostly small.
pub fn accepted_sides(random: &mut Random, recipe: &Recipe) -> (usize, usize) {
    let most = match random.between(0, 15) {
        0 => [1, 40],
        1 => [40, 1],
        2..=3 => [40, 40],
        _ => [12, 12],
    };
    let mut sides = most.map(|most| random.between(1, most));
    while products(recipe, sides[0], sides[1]) > MOST_PRODUCTS && sides != [1, 1] {
        sides = sides.map(|side| side.div_ceil(2));
    }
    (sides[0], sides[1])
}

/// A side that is refused.
pub fn refused_side(random: &mut Random) -> usize {
    let any = random.between(1025, 5000);
    random.one_of(&[
        0,
        1025,
        any,
        1 << 32,
        (1 << 32) + 7,
        1 << 63,
        usize::MAX - 254,
        usize::MAX,
    ])
}

/// Sides of which mostly both are accepted.
pub fn any_sides(random: &mut Random, recipe: &Recipe) -> (usize, usize) {
    let (width, height) = accepted_sides(random, recipe);
    match random.between(0, 23) {
        0 => (refused_side(random), height),
        1 => (width, refused_side(random)),
        2 => (refused_side(random), refused_side(random)),
        _ => (width, height),
    }
}

/// A length of a slice that should have the length `right`.
pub fn any_length(random: &mut Random, right: usize) -> usize {
    let any = random.between(0, 300);
    match random.between(0, 23) {
        0 => right.saturating_sub(1),
        1 => right + 1,
        2 => random.one_of(&[0, 1, 2 * right, any]),
        _ => right,
    }
}

/// A number of work cells where `needed` are needed: just as many, more, or
/// fewer.
pub fn any_cells(random: &mut Random, needed: usize) -> usize {
    match random.between(0, 15) {
        0 => needed.saturating_sub(1),
        1 => random.between(0, needed),
        2..=6 => needed + random.between(1, 9),
        7 => 2 * needed + 1,
        _ => needed,
    }
}

/// A picture with these sides for which a call is mostly not refused 6.
pub fn any_picture(random: &mut Random, width: usize, height: usize) -> Picture {
    // Sides that are refused may have any product modulo 2^64.
    let right = match width.wrapping_mul(height) {
        small @ 0..=1600 => small,
        _ => random.between(0, 20),
    };
    let length = any_length(random, right);
    Picture::random(random, width, height, length)
}

/// The random case of a seed with a picture.
pub fn pictured(seed: u64) -> (Case, Random, Picture) {
    let (case, mut random) = picture_case(seed);
    let (width, height) = any_sides(&mut random, &case.recipe());
    let picture = any_picture(&mut random, width, height);
    (case, random, picture)
}

/// Makes one in three pictures black, white, black but for one pixel, or all of
/// one grey.
pub fn repaint(random: &mut Random, pixels: &mut [u64]) {
    let any = random.grey();
    match random.between(0, 11) {
        0 => pixels.fill(0),
        1 => pixels.fill(LARGEST_GREY),
        2 => {
            pixels.fill(0);
            if !pixels.is_empty() {
                pixels[random.between(0, pixels.len() - 1)] =
                    random.one_of(&[1, LARGEST_GREY, any]);
            }
        }
        3 => pixels.fill(any),
        _ => (),
    }
}

/// Light recipes for larger pictures.
pub const LIGHT: [(&[u8], &[u8]); 8] = [
    (&[], &[]),
    (&[2], &[]),
    (&[], &[2, 1]),
    (&[2], &[2]),
    (&[3], &[2]),
    (&[1, 2], &[3]),
    (&[4], &[1]),
    (&[1], &[2, 2]),
];

/// A picture with sides up to 1,024.
pub fn larger_picture(random: &mut Random) -> Picture {
    let most = random.one_of(&[200, 500, 1024]);
    let any = random.between(1, most);
    let other = random.between(1, most);
    let width = random.one_of(&[1, any, any, 1023, 1024]);
    let height = random.one_of(&[1, other, other, 1023, 1024]);
    Picture::random(random, width, height, width * height)
}

/// A place on a side: on its ends, where the window just goes over them, or
/// anywhere.
fn place_on_side(random: &mut Random, side: usize, list: &[BoxFilter]) -> usize {
    let last = side - 1;
    let half = reference::reach(list).div_ceil(2);
    let near = random
        .one_of(&[0, 1, half.saturating_sub(1), half, half + 1])
        .min(last);
    let any = random.between(0, last);
    random.one_of(&[near, last - near, any])
}

/// Some places of a picture: the four corners, and others of which most are at
/// or near the rims.
pub fn some_places(random: &mut Random, recipe: &Recipe, picture: &Picture) -> Vec<(usize, usize)> {
    let (right, bottom) = (picture.width - 1, picture.height - 1);
    let mut places = vec![(0, 0), (right, 0), (0, bottom), (right, bottom)];
    for _ in 0..12 {
        let column = place_on_side(random, picture.width, &recipe.rows);
        let row = place_on_side(random, picture.height, &recipe.columns);
        places.push((column, row));
    }
    places
}

/// Whether the window of a place goes over the first end of the side, and whether
/// it goes over the last one.
fn over(list: &[BoxFilter], at: usize, side: usize) -> [bool; 2] {
    let reach = reference::reach(list);
    let last = at + reach / 2;
    [last < reach, last >= side]
}

/// Whether the window of a place goes over the left end of the picture and over
/// the right one, and whether over the upper and over the lower one.
pub fn over_ends(recipe: &Recipe, picture: &Picture, place: (usize, usize)) -> [[bool; 2]; 2] {
    [
        over(&recipe.rows, place.0, picture.width),
        over(&recipe.columns, place.1, picture.height),
    ]
}

/// A place past the end of a side. Past the end of a row it has the index of a
/// place in a later row.
pub fn past(random: &mut Random, side: usize) -> usize {
    let near = side.saturating_add(random.between(0, 40));
    let far = side.saturating_add(random.word() as usize);
    random.one_of(&[side, side, near, far, 1 << 32, 1 << 63, usize::MAX])
}

/// A place of which one in eight is outside the picture.
pub fn any_place(random: &mut Random, picture: &Picture) -> (usize, usize) {
    let [column, row] = [picture.width, picture.height].map(|side| match side {
        // A refused side may be 0.
        0 => 0,
        _ => random.between(0, side - 1),
    });
    match random.between(0, 23) {
        0 => (past(random, picture.width), row),
        1 => (column, past(random, picture.height)),
        2 => (past(random, picture.width), past(random, picture.height)),
        _ => (column, row),
    }
}
