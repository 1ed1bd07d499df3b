//! The readings beside the reference, for all three quantities: on random
//! filters and pictures at any place, at every place of small pictures, and at
//! corners, rims and other places of larger ones. BORE_CASES and BORE_SEED set
//! the random cases as they do for the calls on a filter.

mod common;

use common::agree_greys;
use common::pictures::{any_place, larger_picture, past, picture_filter, pictured, repaint};
use common::pictures::{over_ends, some_places, Picture};
use common::{count, each_seed, meets, Case};
use reference::random::Random;

/// The case of a seed with a picture and a place.
fn placed(seed: u64) -> (Case, Random, Picture, (usize, usize)) {
    let (case, mut random, mut picture) = pictured(seed);
    repaint(&mut random, &mut picture.pixels);
    let place = any_place(&mut random, &picture);
    (case, random, picture, place)
}

fn reading(seed: u64) -> u8 {
    let (case, mut random, picture, place) = placed(seed);
    agree_greys::sample(&case, &mut random, &picture, place)
}

#[test]
fn readings_agree() {
    each_seed(2, |seed| {
        reading(seed);
    });
}

/// Every place of a picture, and those just outside it.
#[test]
fn readings_at_every_place_agree() {
    each_seed(50, |seed| {
        let (case, mut random, picture, _) = placed(seed);
        let (width, height) = (picture.width, picture.height);
        if reference::check_picture(&case.recipe(), width, height, picture.pixels.len()).is_err() {
            return;
        }
        for row in 0..=height {
            for column in 0..=width {
                let outside = column == width || row == height;
                let found = agree_greys::sample(&case, &mut random, &picture, (column, row));
                assert_eq!(found, if outside { 15 } else { 0 }, "{case:?}");
            }
        }
    });
}

/// Pictures with sides up to 1,024 and any accepted recipe, at some places and
/// outside.
#[test]
fn places_of_larger_pictures_agree() {
    each_seed(500, |seed| {
        let (case, mut random) = Case::drawn(seed, picture_filter);
        let recipe = case.recipe();
        if reference::check(&recipe).is_err() {
            return;
        }
        let mut picture = larger_picture(&mut random);
        repaint(&mut random, &mut picture.pixels);
        for (column, row) in some_places(&mut random, &recipe, &picture) {
            let found = agree_greys::sample(&case, &mut random, &picture, (column, row));
            assert_eq!(found, 0, "{case:?}");
            let [right, below] =
                [picture.width, picture.height].map(|side| past(&mut random, side));
            for place in [(right, row), (column, below), (right, below)] {
                let found = agree_greys::sample(&case, &mut random, &picture, place);
                assert_eq!(found, 15, "{case:?}");
            }
        }
    });
}

/// How often the first cases meet each number, and how often an accepted one has
/// its window within the picture, over an end of it and over both.
#[test]
fn random_places_meet_every_number_and_kind() {
    let mut numbers = [0; 16];
    let mut kinds = [0; 9];
    for seed in 0..3000 {
        let number = reading(seed);
        numbers[usize::from(number)] += 1;
        if number > 0 {
            continue;
        }
        let (case, _, picture, place) = placed(seed);
        let recipe = case.recipe();
        let [across, down] = over_ends(&recipe, &picture, place);
        let met = [
            across == [true, false],
            across == [false, true],
            across == [true, true],
            down == [true, false],
            down == [false, true],
            down == [true, true],
            across == [false, false] && reference::reach(&recipe.rows) > 0,
            down == [false, false] && reference::reach(&recipe.columns) > 0,
            reference::weight(&recipe) == reference::MOST_WEIGHT,
        ];
        count(&mut kinds, met);
    }
    let due = [0, 1, 2, 3, 4, 5, 6, 15];
    assert!(meets(&numbers, &due), "{numbers:?}");
    assert!(kinds.iter().all(|&n| n >= 10), "{kinds:?}");
}
