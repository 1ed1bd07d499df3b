//! The methods "direct" and "pass by pass" beside the reference, on random
//! filters and pictures, with slices of right and wrong lengths; and all three
//! methods on larger pictures. BORE_CASES and BORE_SEED set the random cases as
//! they do for the calls on a filter.

mod common;

use common::agree_methods;
use common::pictures::{any_cells, any_length, larger_picture, pictured, Picture, LIGHT};
use common::three::three_methods;
use common::{count, each_seed, some_width, Case};
use reference::random::Random;
use reference::Recipe;

/// The sides of the coefficients and of the grown picture where the recipe and
/// the sides are accepted, else small numbers.
fn right_lengths(random: &mut Random, recipe: &Recipe, picture: &Picture) -> [usize; 3] {
    match reference::grown_size(recipe, picture.width, picture.height) {
        Ok(size) => {
            let [r, c] = [&recipe.rows, &recipe.columns].map(|list| reference::reach(list) + 1);
            [r, c, size]
        }
        Err(_) => [(); 3].map(|_| random.between(0, 20)),
    }
}

/// The case of a seed with a picture, and the right lengths for it.
fn with_lengths(seed: u64) -> (Case, Random, Picture, [usize; 3]) {
    let (case, mut random, picture) = pictured(seed);
    let lengths = right_lengths(&mut random, &case.recipe(), &picture);
    (case, random, picture, lengths)
}

fn direct(seed: u64) -> u8 {
    let (case, mut random, picture, right) = with_lengths(seed);
    let lengths = right.map(|length| any_length(&mut random, length));
    agree_methods::direct(&case, &mut random, &picture, lengths)
}

fn passes(seed: u64) -> u8 {
    let (case, mut random, picture, [_, _, size]) = with_lengths(seed);
    let lengths = [any_length(&mut random, size), any_cells(&mut random, size)];
    agree_methods::passes(&case, &mut random, &picture, lengths)
}

#[test]
fn direct_agrees() {
    each_seed(4, |seed| {
        direct(seed);
    });
}

#[test]
fn passes_agree() {
    each_seed(4, |seed| {
        passes(seed);
    });
}

/// All three methods on pictures with sides up to 1,024.
#[test]
fn larger_pictures_agree() {
    each_seed(1000, |seed| {
        let mut random = Random::new(seed);
        let (rows, columns) = random.one_of(&LIGHT);
        let filter = common::filter(rows, columns);
        let Picture {
            width,
            height,
            pixels,
        } = larger_picture(&mut random);
        let expected = reference::exact_sums(&Recipe::new(rows, columns), width, height, &pixels);
        let found = three_methods(&filter, width, height, &pixels);
        let note = format_args!("seed {seed}, {width} by {height}, {rows:?}, {columns:?}");
        assert!(found == expected, "{note}");
    });
}

/// How often the first cases meet each number of each method, and how often an
/// accepted one is at a limit.
#[test]
fn random_cases_meet_every_number_and_limit() {
    let mut numbers = [[0; 9]; 2];
    let mut limits = [0; 9];
    for seed in 0..3000 {
        let number = direct(seed);
        numbers[0][usize::from(number)] += 1;
        numbers[1][usize::from(passes(seed))] += 1;
        if number > 0 {
            continue;
        }
        let (case, _, picture) = pictured(seed);
        let Recipe { rows, columns } = case.recipe();
        let wider = |list, side| some_width(list, |n| n > side);
        let met = [
            reference::weight(&case.recipe()) == reference::MOST_WEIGHT,
            reference::reach(&rows) == 255,
            reference::reach(&columns) == 255,
            rows.len() == 48,
            columns.len() == 48,
            wider(&rows, picture.width),
            wider(&columns, picture.height),
            (picture.width, picture.height) == (1, 1),
            rows.is_empty() && columns.is_empty(),
        ];
        count(&mut limits, met);
    }
    // The direct method has no 8.
    assert_eq!(numbers[0][8], 0);
    assert!(numbers[0][..8].iter().all(|&n| n >= 20), "{numbers:?}");
    assert!(numbers[1].iter().all(|&n| n >= 20), "{numbers:?}");
    assert!(limits.iter().all(|&n| n >= 10), "{limits:?}");
}
