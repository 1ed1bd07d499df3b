//! Pairs of recipes for the comparing call: an accepted recipe and a relative
//! of it that is equal to it or differs in one place.

use super::{filter_of, shuffled, Case};
use reference::random::Random;
use reference::{BoxFilter, Recipe};

/// Makes a relative of an accepted recipe, and says whether the two are equal.
/// The relative may be refused.
pub type Maker = fn(&mut Random, &Recipe) -> (Recipe, bool);

/// All makers.
pub const MAKERS: [Maker; 8] = [
    reordered, other_ones, exchanged, added, dropped, changed, moved, joined,
];

/// An accepted recipe: small, of any size, or at a limit.
pub fn accepted_recipe(random: &mut Random) -> Recipe {
    match random.between(0, 9) {
        0..=2 => random.valid_recipe(3),
        3..=4 => random.valid_recipe(40),
        5 => random.valid_recipe(255),
        6 => random.recipe_of_length(48),
        7 => random.recipe_of_reach(255),
        8 => random.recipe_of_full_weight(),
        _ => random.recipe_just_below(),
    }
}

/// The case of a recipe.
pub fn case_of(random: &mut Random, seed: u64, recipe: &Recipe) -> Case {
    Case::new(random, seed, filter_of(recipe))
}

/// A list without its widths of 1.
pub fn struck(list: &[BoxFilter]) -> Vec<BoxFilter> {
    list.iter().copied().filter(|one| one.width != 1).collect()
}

/// A list with its widths of 1 struck out and others put in at random places.
fn with_other_ones(random: &mut Random, list: &[BoxFilter]) -> Vec<BoxFilter> {
    let mut list = struck(list);
    let room = 48 - list.len();
    let any = random.between(0, room);
    for _ in 0..random.one_of(&[0, any, any, room]) {
        list.insert(random.between(0, list.len()), BoxFilter::of_width(1));
    }
    list
}

/// The same widths in another order.
pub fn reordered(random: &mut Random, recipe: &Recipe) -> (Recipe, bool) {
    let rows = shuffled(random, &recipe.rows);
    let columns = shuffled(random, &recipe.columns);
    (Recipe { rows, columns }, true)
}

/// The same widths above 1 in the same order, with other widths of 1 between.
pub fn other_ones(random: &mut Random, recipe: &Recipe) -> (Recipe, bool) {
    let rows = with_other_ones(random, &recipe.rows);
    let columns = with_other_ones(random, &recipe.columns);
    (Recipe { rows, columns }, true)
}

/// A recipe equal to this one, in another order, with other widths of 1, or
/// both. A list that is too long stays so.
pub fn disguised(random: &mut Random, recipe: &Recipe) -> Recipe {
    let longest = recipe.rows.len().max(recipe.columns.len());
    let mut recipe = recipe.clone();
    if longest <= 48 && random.coin() {
        recipe = other_ones(random, &recipe).0;
    }
    if random.coin() {
        recipe = reordered(random, &recipe).0;
    }
    recipe
}

/// Rows and columns exchanged.
pub fn exchanged(_: &mut Random, recipe: &Recipe) -> (Recipe, bool) {
    let [mut rows, mut columns] = [&recipe.rows, &recipe.columns].map(|list| struck(list));
    rows.sort();
    columns.sort();
    let other = Recipe {
        rows: recipe.columns.clone(),
        columns: recipe.rows.clone(),
    };
    (other, rows == columns)
}

/// The lists of a recipe, and one of the axes, 0 or 1, by chance. If only one
/// list has widths, it is that one.
fn lists_and_axis(random: &mut Random, recipe: &Recipe) -> ([Vec<BoxFilter>; 2], usize) {
    let lists = [recipe.rows.clone(), recipe.columns.clone()];
    let axis = match (lists[0].is_empty(), lists[1].is_empty()) {
        (true, false) => 1,
        (false, true) => 0,
        _ => random.between(0, 1),
    };
    (lists, axis)
}

fn recipe_of_lists([rows, columns]: [Vec<BoxFilter>; 2]) -> Recipe {
    Recipe { rows, columns }
}

/// One width put in.
pub fn added(random: &mut Random, recipe: &Recipe) -> (Recipe, bool) {
    let mut lists = [recipe.rows.clone(), recipe.columns.clone()];
    let list = &mut lists[random.between(0, 1)];
    let any = random.between(1, 255) as u8;
    let n = random.one_of(&[1, 2, 3, any]);
    list.insert(random.between(0, list.len()), BoxFilter::of_width(n));
    (recipe_of_lists(lists), n == 1)
}

/// One width taken out, if there is one.
pub fn dropped(random: &mut Random, recipe: &Recipe) -> (Recipe, bool) {
    let (mut lists, axis) = lists_and_axis(random, recipe);
    if lists[axis].is_empty() {
        return (recipe.clone(), true);
    }
    let at = random.between(0, lists[axis].len() - 1);
    let one = lists[axis].remove(at);
    (recipe_of_lists(lists), one.width == 1)
}

/// One width replaced, at times by one that the list has already.
pub fn changed(random: &mut Random, recipe: &Recipe) -> (Recipe, bool) {
    let (mut lists, axis) = lists_and_axis(random, recipe);
    let list = &mut lists[axis];
    if list.is_empty() {
        return added(random, recipe);
    }
    let at = random.between(0, list.len() - 1);
    let n = list[at].width;
    let present = random.one_of(list).width;
    let any = random.between(1, 255) as u8;
    list[at].width = random.one_of(&[n - 1, n.saturating_add(1), present, any]);
    let equal = list[at].width == n;
    (recipe_of_lists(lists), equal)
}

/// One width taken from its list and put into that of the other axis.
pub fn moved(random: &mut Random, recipe: &Recipe) -> (Recipe, bool) {
    let (mut lists, axis) = lists_and_axis(random, recipe);
    if lists[axis].is_empty() {
        return (recipe.clone(), true);
    }
    let at = random.between(0, lists[axis].len() - 1);
    let one = lists[axis].remove(at);
    lists[1 - axis].push(one);
    (recipe_of_lists(lists), one.width == 1)
}

/// Two widths of one list replaced by one that has their weight, or their
/// reach, if that is a width.
pub fn joined(random: &mut Random, recipe: &Recipe) -> (Recipe, bool) {
    let (mut lists, axis) = lists_and_axis(random, recipe);
    lists[axis] = shuffled(random, &lists[axis]);
    let [.., n, m] = lists[axis][..] else {
        return (recipe.clone(), true);
    };
    let [n, m] = [n, m].map(|one| u16::from(one.width));
    let Ok(one) = u8::try_from(random.one_of(&[n * m, n + m - 1])) else {
        return (recipe.clone(), true);
    };
    let length = lists[axis].len() - 2;
    lists[axis].truncate(length);
    lists[axis].push(BoxFilter::of_width(one));
    (recipe_of_lists(lists), n == 1 || m == 1)
}
