//! Random recipes and pictures with much rim: reaches about the sides of the
//! picture and beyond them.

use super::pictures::{repaint, Picture};
use super::{filter_of, list_of_reach, Case};
use reference::random::Random;
use reference::{reach, Recipe, MOST_REACH};

/// The products that the reference forms for one picture, at most.
const MOST_PRODUCTS: usize = 2_000_000;

/// A reach for a side: none, within the side, about it or about twice it, or
/// beyond it.
fn reach_for(random: &mut Random, side: usize) -> usize {
    let within = random.between(0, side);
    let beyond = random.between(side, 3 * side);
    let [near, twice] = [side, 2 * side].map(|n| n - 1 + random.between(0, 2));
    random
        .one_of(&[0, within, near, twice, beyond, beyond])
        .min(MOST_REACH)
}

/// An accepted recipe with such reaches, of short widths or of long ones, or one
/// with a weight at the limit.
fn rim_recipe(random: &mut Random, width: usize, height: usize) -> Recipe {
    match random.between(0, 15) {
        0 => return random.recipe_of_full_weight(),
        1 => return random.recipe_just_below(),
        _ => (),
    }
    let reaches = [width, height].map(|side| reach_for(random, side));
    loop {
        let most = random.one_of(&[1, 3, 9, 40, 254]);
        let [rows, columns] = reaches.map(|reach| list_of_reach(random, reach, most));
        let recipe = Recipe::new(&rows, &columns);
        if reference::check(&recipe).is_ok() {
            return recipe;
        }
    }
}

/// The products that the reference forms for the places of a picture.
fn products(recipe: &Recipe, width: usize, height: usize) -> usize {
    let rows = height.min(reach(&recipe.columns) + 1);
    width * height * rows * (reach(&recipe.rows) + 1)
}

/// The case of such a recipe and a picture of these sides, or of smaller ones
/// where the reference would have too much to do.
fn case_of(seed: u64, mut random: Random, sides: [usize; 2]) -> (Case, Random, Picture) {
    let recipe = rim_recipe(&mut random, sides[0], sides[1]);
    let case = Case::new(&mut random, seed, filter_of(&recipe));
    let [mut width, mut height] = sides;
    while products(&recipe, width, height) > MOST_PRODUCTS {
        (width, height) = (width.div_ceil(2), height.div_ceil(2));
    }
    let mut picture = Picture::random(&mut random, width, height, width * height);
    repaint(&mut random, &mut picture.pixels);
    (case, random, picture)
}

/// The case of a seed with sides of 1 to 40.
pub fn small_case(seed: u64) -> (Case, Random, Picture) {
    let mut random = Random::new(seed);
    let sides = [(); 2].map(|_| {
        let most = random.one_of(&[1, 4, 12, 40]);
        random.between(1, most)
    });
    case_of(seed, random, sides)
}

/// The case of a seed with one side of up to 1,024 and one of a few pixels.
pub fn long_case(seed: u64) -> (Case, Random, Picture) {
    let mut random = Random::new(seed);
    let any = random.between(40, 1024);
    let long = random.one_of(&[1023, 1024, any, any]);
    let mut sides = [long, random.between(1, 6)];
    if random.coin() {
        sides.reverse();
    }
    case_of(seed, random, sides)
}

/// The places of a picture, row by row.
pub fn places(picture: &Picture) -> impl Iterator<Item = (usize, usize)> {
    let (width, height) = (picture.width, picture.height);
    (0..height).flat_map(move |row| (0..width).map(move |column| (column, row)))
}
