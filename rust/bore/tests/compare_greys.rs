//! Rounding and the same-size blur beside the reference, on random filters, rows
//! of sums and pictures, with slices of right and wrong lengths; and the blur of
//! larger pictures. BORE_CASES and BORE_SEED set the random cases as they do for
//! the calls on a filter.

mod common;

use common::pictures::{any_cells, any_length, larger_picture, picture_case, picture_filter};
use common::pictures::{pictured, repaint, some_places, Picture, LIGHT};
use common::sums::{any_sums, weight};
use common::{accepted, agree_greys, count, each_seed, filter, meets, recipe_of, Case};
use reference::random::Random;
use reference::{Choice, Reading, Recipe, LARGEST_GREY};

fn rounding(seed: u64) -> u8 {
    let (case, mut random) = picture_case(seed);
    let sums = any_sums(&mut random, weight(&case.recipe()));
    let lengths = [(); 2].map(|_| any_length(&mut random, sums.len()));
    agree_greys::round(&case, &mut random, &sums, lengths)
}

#[test]
fn rounding_agrees() {
    each_seed(2, |seed| {
        rounding(seed);
    });
}

/// The case of a seed with a picture, and lengths of both outputs and of the
/// cells, of which most are right.
fn with_lengths(seed: u64) -> (Case, Random, Picture, [usize; 3]) {
    let (case, mut random, mut picture) = pictured(seed);
    repaint(&mut random, &mut picture.pixels);
    let needed = reference::same_size_cells(&case.recipe(), picture.width, picture.height);
    let right = match needed {
        Ok(needed) => [picture.width * picture.height, needed],
        Err(_) => [(); 2].map(|_| random.between(0, 20)),
    };
    let [grays, leftovers] = [(); 2].map(|_| any_length(&mut random, right[0]));
    let cells = any_cells(&mut random, right[1]);
    (case, random, picture, [grays, leftovers, cells])
}

fn blur(seed: u64) -> u8 {
    let (case, mut random, picture, lengths) = with_lengths(seed);
    agree_greys::blur(&case, &mut random, &picture, lengths)
}

#[test]
fn blurs_agree() {
    each_seed(2, |seed| {
        blur(seed);
    });
}

/// Pictures with sides up to 1,024, every place of them.
#[test]
fn larger_pictures_agree() {
    each_seed(2000, |seed| {
        let mut random = Random::new(seed);
        let (rows, columns) = random.one_of(&LIGHT);
        let case = Case::new(&mut random, seed, filter(rows, columns));
        let mut picture = larger_picture(&mut random);
        repaint(&mut random, &mut picture.pixels);
        let (width, height) = (picture.width, picture.height);
        let needed = reference::same_size_cells(&case.recipe(), width, height);
        let size = width * height;
        let lengths = [size, size, needed.unwrap_or(0)];
        let number = agree_greys::blur(&case, &mut random, &picture, lengths);
        assert_eq!(number, 0, "{width} by {height}, {case:?}");
    });
}

/// Pictures with sides up to 1,024 and any accepted recipe, at some places.
#[test]
fn places_of_larger_pictures_agree() {
    each_seed(1000, |seed| {
        let mut random = Random::new(seed);
        let filter = picture_filter(&mut random);
        let recipe = recipe_of(&filter);
        if reference::check(&recipe).is_err() {
            return;
        }
        let mut picture = larger_picture(&mut random);
        repaint(&mut random, &mut picture.pixels);
        let (w, h) = (picture.width, picture.height);
        let (grays, leftovers) = accepted::blur(&filter, w, h, &picture.pixels);
        for place in some_places(&mut random, &recipe, &picture) {
            let pixels = &picture.pixels;
            let expected = reference::reading(&recipe, w, h, pixels, place, Choice::Grey);
            let at = place.1 * w + place.0;
            let found = Ok(Reading::Grey(grays[at], leftovers[at]));
            let note = format_args!("seed {seed}, {place:?} of {w} by {h}, {recipe:?}");
            assert_eq!(found, expected, "{note}");
        }
    });
}

/// Kinds of weights: 1, another with a single bit set, 2^44, odd, other.
fn kinds_of_weight(recipe: &Recipe) -> [bool; 5] {
    let weight = weight(recipe);
    let power = weight.is_power_of_two();
    let odd = weight % 2 == 1;
    [
        weight == 1,
        power && weight > 1,
        weight == 1 << 44,
        odd && weight > 1,
        !power && !odd,
    ]
}

/// How often the first cases meet each number, and each kind of weight while
/// they are accepted.
#[test]
fn random_rows_meet_every_number_and_kind() {
    let mut numbers = [0; 12];
    let mut weights = [0; 5];
    for seed in 0..3000 {
        let number = rounding(seed);
        numbers[usize::from(number)] += 1;
        if number == 0 {
            let (case, _) = picture_case(seed);
            count(&mut weights, kinds_of_weight(&case.recipe()));
        }
    }
    assert!(meets(&numbers, &[0, 1, 2, 3, 4, 7, 11]), "{numbers:?}");
    assert!(weights.iter().all(|&n| n >= 10), "{weights:?}");
}

/// Kinds of pictures: black, white, black but for one pixel.
fn kinds_of_picture(pixels: &[u64]) -> [bool; 3] {
    let all = |value: u64| pixels.iter().all(|&pixel| pixel == value);
    let lit = pixels.iter().filter(|&&pixel| pixel > 0).count();
    let large = pixels.len() > 1;
    [
        large && all(0),
        large && all(LARGEST_GREY),
        large && lit == 1,
    ]
}

/// How often the first cases meet each number, and how often an accepted one is
/// of each kind.
#[test]
fn random_pictures_meet_every_number_and_kind() {
    let mut numbers = [0; 9];
    let mut weights = [0; 5];
    let mut pictures = [0; 3];
    let mut others = [0; 7];
    for seed in 0..3000 {
        let number = blur(seed);
        numbers[usize::from(number)] += 1;
        if number > 0 {
            continue;
        }
        let (case, _, picture, [_, _, cells]) = with_lengths(seed);
        let recipe = case.recipe();
        count(&mut weights, kinds_of_weight(&recipe));
        count(&mut pictures, kinds_of_picture(&picture.pixels));
        let [rx, ry] = [&recipe.rows, &recipe.columns].map(|list| reference::reach(list));
        let needed = reference::same_size_cells(&recipe, picture.width, picture.height);
        let more = cells - needed.unwrap_or(0);
        let odd = |reach: usize| reach % 2 == 1;
        let met = [
            odd(rx),
            odd(ry),
            rx > 0 && ry > 0 && !odd(rx) && !odd(ry),
            rx == 255,
            ry == 255,
            more == 0,
            more > 0,
        ];
        count(&mut others, met);
    }
    assert!(meets(&numbers, &[0, 1, 2, 3, 4, 5, 6, 7, 8]), "{numbers:?}");
    for counts in [&weights[..], &pictures, &others] {
        assert!(counts.iter().all(|&n| n >= 10), "{counts:?}");
    }
}
