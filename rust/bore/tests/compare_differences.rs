//! The difference of two recipes beside the reference, on random pairs of
//! filters, of which most agree in parity, and random pictures, with slices of
//! right and wrong lengths; and on larger pictures. BORE_CASES and BORE_SEED set
//! the random cases as they do for the calls on a filter.

mod common;

use bore::Filter;
use common::difference_pairs::{any_pair, parity_agrees};
use common::pairs::case_of;
use common::pictures::{any_cells, any_length, any_picture, any_sides, larger_picture};
use common::pictures::{products, repaint, some_places, Picture, LIGHT};
use common::{accepted, agree_greys, count, each_seed, filter_of, meets};
use reference::random::Random;
use reference::{reach, Choice, Reading, Recipe};

/// The pair of a seed with a picture, and lengths of output and cells of which
/// most are right.
fn with_lengths(seed: u64) -> ([Recipe; 2], Random, Picture, [usize; 2]) {
    let mut random = Random::new(seed);
    let pair = any_pair(&mut random);
    let [a, b] = &pair;
    let wider = if products(a, 1, 1) > products(b, 1, 1) {
        a
    } else {
        b
    };
    let (width, height) = any_sides(&mut random, wider);
    let mut picture = any_picture(&mut random, width, height);
    repaint(&mut random, &mut picture.pixels);
    let right = match reference::difference_cells(a, b, width, height) {
        Ok(needed) => [width * height, needed],
        Err(_) => [(); 2].map(|_| random.between(0, 20)),
    };
    let out = any_length(&mut random, right[0]);
    let cells = any_cells(&mut random, right[1]);
    (pair, random, picture, [out, cells])
}

fn difference(seed: u64) -> u8 {
    let (pair, mut random, picture, lengths) = with_lengths(seed);
    let [a, b] = pair
        .each_ref()
        .map(|recipe| case_of(&mut random, seed, recipe));
    agree_greys::difference([&a, &b], &mut random, &picture, lengths)
}

#[test]
fn differences_agree() {
    each_seed(5, |seed| {
        difference(seed);
    });
}

/// The exchanged recipes give the same numbers with the other sign.
#[test]
fn exchange_turns_the_sign() {
    each_seed(20, |seed| {
        let (pair, _, picture, _) = with_lengths(seed);
        if difference(seed) > 0 {
            return;
        }
        let [a, b] = pair.map(|recipe| filter_of(&recipe));
        let by = |a: &Filter, b: &Filter| {
            accepted::difference([a, b], picture.width, picture.height, &picture.pixels)
        };
        let back: Vec<i64> = by(&b, &a).iter().map(|value| -value).collect();
        assert_eq!(by(&a, &b), back, "seed {seed}: {a:?}, {b:?}");
    });
}

/// Two light recipes whose parity agrees.
fn light_pair(random: &mut Random) -> [Recipe; 2] {
    loop {
        let pair = [(); 2].map(|_| {
            let (rows, columns) = random.one_of(&LIGHT);
            Recipe::new(rows, columns)
        });
        if parity_agrees(&pair) {
            return pair;
        }
    }
}

/// Pictures with sides up to 1,024, every place of them.
#[test]
fn larger_pictures_agree() {
    each_seed(2000, |seed| {
        let mut random = Random::new(seed);
        let [a, b] = light_pair(&mut random);
        let mut picture = larger_picture(&mut random);
        repaint(&mut random, &mut picture.pixels);
        let (width, height) = (picture.width, picture.height);
        let needed = reference::difference_cells(&a, &b, width, height);
        let lengths = [width * height, needed.unwrap_or(0)];
        let [a, b] = [a, b].map(|recipe| case_of(&mut random, seed, &recipe));
        let number = agree_greys::difference([&a, &b], &mut random, &picture, lengths);
        assert_eq!(number, 0, "{width} by {height}, {a:?}, {b:?}");
    });
}

/// The exact sum of the reference at a place.
fn sum_at(recipe: &Recipe, picture: &Picture, place: (usize, usize)) -> u64 {
    let (width, height) = (picture.width, picture.height);
    let pixels = &picture.pixels;
    match reference::reading(recipe, width, height, pixels, place, Choice::Sum) {
        Ok(Reading::Sum(sum)) => sum,
        other => panic!("{other:?} in place of a sum, {recipe:?}"),
    }
}

/// The difference of the reference at a place.
fn difference_at([a, b]: [&Recipe; 2], picture: &Picture, place: (usize, usize)) -> i64 {
    let [x, y] = [a, b].map(|recipe| {
        let card = reference::scale_card(recipe).expect("the recipe is accepted");
        (sum_at(recipe, picture, place), card.weight)
    });
    reference::difference_of_sums(x.0, x.1, y.0, y.1)
}

fn is_accepted(pair: &[Recipe; 2]) -> bool {
    let product = reference::weight(&pair[0]).saturating_mul(reference::weight(&pair[1]));
    let each = pair.iter().all(|recipe| reference::check(recipe).is_ok());
    each && parity_agrees(pair) && product <= reference::MOST_WEIGHT
}

/// Pictures with sides up to 1,024 and any accepted pair, at some places.
#[test]
fn places_of_larger_pictures_agree() {
    each_seed(1000, |seed| {
        let mut random = Random::new(seed);
        let pair = any_pair(&mut random);
        if !is_accepted(&pair) {
            return;
        }
        let mut picture = larger_picture(&mut random);
        repaint(&mut random, &mut picture.pixels);
        let (width, height) = (picture.width, picture.height);
        let [a, b] = &pair;
        let filters = [a, b].map(filter_of);
        let found = accepted::difference(filters.each_ref(), width, height, &picture.pixels);
        let mut places = some_places(&mut random, a, &picture);
        places.extend(some_places(&mut random, b, &picture));
        for place in places {
            let expected = difference_at([a, b], &picture, place);
            let note = format_args!("seed {seed}, {place:?} of {width} by {height}, {pair:?}");
            assert_eq!(found[place.1 * width + place.0], expected, "{note}");
        }
    });
}

/// How often the first cases meet each number.
#[test]
fn random_pairs_meet_every_number() {
    let mut numbers = [0; 14];
    for seed in 0..5000 {
        numbers[usize::from(difference(seed))] += 1;
    }
    let due = [0, 1, 2, 3, 4, 5, 6, 7, 8, 12, 13];
    assert!(meets(&numbers, &due), "{numbers:?}");
}

/// How often the first accepted cases are of each kind.
#[test]
fn random_pairs_meet_every_kind() {
    let mut kinds = [0; 12];
    for seed in 0..5000 {
        if difference(seed) > 0 {
            continue;
        }
        let ([a, b], _, picture, [_, cells]) = with_lengths(seed);
        let needed = reference::difference_cells(&a, &b, picture.width, picture.height);
        let more = cells - needed.unwrap_or(0);
        let product = reference::weight(&a) * reference::weight(&b);
        let reaches = [&a.rows, &b.rows, &a.columns, &b.columns].map(|list| reach(list));
        let (power, odd) = (product.is_power_of_two(), product % 2 == 1);
        let met = [
            product == reference::MOST_WEIGHT,
            product == reference::MOST_WEIGHT - 256,
            power && product > 1,
            odd && product > 1,
            !odd && !power,
            reaches[0] % 2 == 1 && reaches[0] != reaches[1],
            reaches[2] % 2 == 1 && reaches[2] != reaches[3],
            a == b,
            reaches[0] > reaches[1],
            reaches[2] < reaches[3],
            more == 0,
            more > 0,
        ];
        count(&mut kinds, met);
    }
    assert!(kinds.iter().all(|&n| n >= 10), "{kinds:?}");
}
