//! Random pairs of recipes for the difference.

use super::pictures::picture_filter;
use super::recipe_of;
use reference::random::Random;
use reference::{reach, BoxFilter, Recipe};

/// Two recipes that share these boxes by chance: the product of their weights
/// is that of the widths.
fn shared(random: &mut Random, list: &[BoxFilter]) -> [Recipe; 2] {
    let mut lists = [const { vec![] }; 4];
    for &one in list {
        lists[random.between(0, 3)].push(one);
    }
    let [rows, columns, b_rows, b_columns] = lists;
    let a = Recipe { rows, columns };
    let (rows, columns) = (b_rows, b_columns);
    [a, Recipe { rows, columns }]
}

/// Two recipes: small ones, a product of weights at the limit, just below or
/// just above it, any two, or one recipe twice.
fn drawn_pair(random: &mut Random) -> [Recipe; 2] {
    match random.between(0, 15) {
        kind @ 0..=3 => {
            let Recipe { rows, columns } = match kind {
                0..=1 => random.recipe_of_full_weight(),
                2 => random.recipe_just_below(),
                _ => random.recipe_just_above(),
            };
            shared(random, &[rows, columns].concat())
        }
        4..=8 => [(); 2].map(|_| recipe_of(&picture_filter(random))),
        9 => {
            let recipe = random.valid_recipe(12);
            [recipe.clone(), recipe]
        }
        10 => [Recipe::default(), random.valid_recipe(40)],
        _ => [(); 2].map(|_| random.valid_recipe(12)),
    }
}

pub fn parity_agrees([a, b]: &[Recipe; 2]) -> bool {
    let agrees = |x: &[BoxFilter], y: &[BoxFilter]| reach(x) % 2 == reach(y) % 2;
    agrees(&a.rows, &b.rows) && agrees(&a.columns, &b.columns)
}

/// Such a pair, in either order. Most are drawn anew until their parity agrees.
pub fn any_pair(random: &mut Random) -> [Recipe; 2] {
    let mut pair = drawn_pair(random);
    while !parity_agrees(&pair) && random.between(0, 31) > 0 {
        pair = drawn_pair(random);
    }
    if random.coin() {
        pair.reverse();
    }
    pair
}
