//! Random arguments. Most pictures are tiny and most recipes short, since the
//! reference forms every sum as it is defined; a few are larger.

use crate::common::guarded::DATA;
use crate::common::pictures::{any_cells, any_length, picture_filter, products};
use crate::common::pictures::{refused_side, repaint, Picture, REFUSED};
use crate::common::{any_filter, any_state, recipe_of};
use bore::Filter;
use reference::random::Random;
use reference::{reach, Recipe};

/// The products that the reference may form for most pictures, for a few, and
/// for very few: both reaches may be 255 then.
const FEW: usize = 6_000;
const MANY: usize = 100_000;
const MOST: usize = 17_000_000;

/// The longest slice that is lent where it is the right one.
const LONGEST: usize = 130_000;

/// The most work cells that can be lent.
const MOST_CELLS: usize = DATA / 8;

/// A filter near all limits, or of random bytes.
pub fn any_block(random: &mut Random) -> Filter {
    match random.between(0, 15) {
        0 => any_state(random).filter,
        1 => {
            let mut filter = any_state(random).filter;
            filter.rows.count = random.between(0, 3) as u8;
            filter.columns.count = random.between(0, 3) as u8;
            filter
        }
        _ => any_filter(random),
    }
}

/// A bound for the products of one picture.
pub fn bound(random: &mut Random) -> usize {
    match random.between(0, 8191) {
        0 => MOST,
        1..=256 => MANY,
        _ => FEW,
    }
}

/// The products for one pixel; none where the filter is refused.
fn products_of(filter: &Filter) -> usize {
    let recipe = recipe_of(filter);
    match reference::check(&recipe) {
        Ok(()) => products(&recipe, 1, 1),
        Err(_) => 0,
    }
}

fn drawn_filter(random: &mut Random) -> Filter {
    match random.between(0, 7) {
        0 => any_block(random),
        _ => picture_filter(random),
    }
}

/// A filter for a call on a picture. Widths are left out until the reference
/// forms at most so many products for one pixel; a high bound is mostly used.
pub fn light_filter(random: &mut Random, most: usize) -> Filter {
    let mut filter = drawn_filter(random);
    for _ in 0..8 {
        if most > FEW && products_of(&filter) <= FEW {
            filter = drawn_filter(random);
        }
    }
    while products_of(&filter) > most {
        match random.coin() {
            true => filter.rows.count /= 2,
            false => filter.columns.count /= 2,
        }
    }
    filter
}

/// Two sides that are refused and whose product is a small number modulo 2^64.
fn wrapping_sides(random: &mut Random) -> (usize, usize) {
    let width = random.word() as usize | 1 << 63 | 1;
    let mut inverse = width;
    for _ in 0..5 {
        inverse = inverse.wrapping_mul(2usize.wrapping_sub(width.wrapping_mul(inverse)));
    }
    let height = inverse.wrapping_mul(random.between(1, 20));
    (width, height)
}

/// A side that is refused, up to the largest number.
fn beyond(random: &mut Random) -> usize {
    let refused = refused_side(random);
    let power = 1 << random.between(11, 63);
    let any = random.word() as usize | 1 << 11;
    random.one_of(&[refused, power, any])
}

/// A small side that is accepted.
fn small_side(random: &mut Random) -> usize {
    let most = random.one_of(&[1, 3, 8, 8]);
    random.between(1, most)
}

/// Accepted sides of which one is at or near the limit, or any.
fn long_sides(random: &mut Random) -> (usize, usize) {
    let any = random.between(1, 1024);
    let long = random.one_of(&[1023, 1024, 1024, any]);
    let thick = random.between(1, 20);
    let other = random.one_of(&[1, 1, 2, thick]);
    random.one_of(&[(long, other), (other, long)])
}

/// These sides, or smaller ones: the reference forms at most so many products,
/// or those for one pixel.
fn bounded(recipe: &Recipe, sides: (usize, usize), most: usize) -> (usize, usize) {
    let (mut width, mut height) = sides;
    while products(recipe, width, height) > most && (width, height) != (1, 1) {
        (width, height) = (width.div_ceil(2), height.div_ceil(2));
    }
    (width, height)
}

/// Sides that are mostly small and accepted, with this bound for the products of
/// small pictures.
pub fn sides(random: &mut Random, recipe: &Recipe, most: usize) -> (usize, usize) {
    let small = (small_side(random), small_side(random));
    let (refused, other) = (beyond(random), beyond(random));
    match random.between(0, 63) {
        0 => random.one_of(&REFUSED),
        1 => wrapping_sides(random),
        2 => (refused, small.1),
        3 => (small.0, refused),
        4 => (refused, other),
        5..=6 => bounded(recipe, long_sides(random), most.max(MANY)),
        _ => bounded(recipe, small, most),
    }
}

/// A side for a call without a picture: any, at the limits and beyond.
pub fn any_side(random: &mut Random) -> usize {
    match random.between(0, 15) {
        0..=3 => random.one_of(&[1, 2, 1023, 1024]),
        4 => {
            let beyond = beyond(random);
            random.one_of(&[0, 1025, beyond])
        }
        _ => random.between(1, 1024),
    }
}

/// A length of a slice, mostly the right one; where that is too long to be lent,
/// a small one.
pub fn length(random: &mut Random, right: usize) -> usize {
    match right {
        0..=LONGEST => any_length(random, right),
        _ => random.between(0, 20),
    }
}

/// A number of work cells, mostly as many as are needed or more; where these are
/// too many to be lent, a small one.
pub fn cells(random: &mut Random, needed: usize) -> usize {
    match needed {
        0..=MOST_CELLS => any_cells(random, needed).min(MOST_CELLS),
        _ => random.between(0, 20),
    }
}

/// A picture, mostly with as many pixels as its sides say, modulo 2^64 too.
pub fn picture(random: &mut Random, recipe: &Recipe, most: usize) -> Picture {
    let (width, height) = sides(random, recipe, most);
    let pixels = length(random, width.wrapping_mul(height));
    let mut picture = Picture::random(random, width, height, pixels);
    repaint(random, &mut picture.pixels);
    picture
}

/// A filter and a picture for it.
pub fn filter_and_picture(random: &mut Random) -> (Filter, Recipe, Picture) {
    let most = bound(random);
    let filter = light_filter(random, most);
    let recipe = recipe_of(&filter);
    let picture = picture(random, &recipe, most);
    (filter, recipe, picture)
}

/// The grown size of a picture, modulo 2^64 where the sides are refused.
pub fn grown_size(recipe: &Recipe, picture: &Picture) -> usize {
    let width = picture.width.wrapping_add(reach(&recipe.rows));
    let height = picture.height.wrapping_add(reach(&recipe.columns));
    width.wrapping_mul(height)
}

/// The size of a picture, modulo 2^64 where the sides are refused.
pub fn size(picture: &Picture) -> usize {
    picture.width.wrapping_mul(picture.height)
}
