//! The comparing call beside the sums of pictures: two accepted recipes are
//! called equal exactly when the grown size, the weight and all sums agree,
//! whichever of the three methods works out the sums of the one and whichever
//! those of the other. BORE_CASES and BORE_SEED set the random cases as they do
//! for the calls on a filter.
//!
//! A single picture decides this, as long as one of its pixels is not 0.

mod common;

use bore::Filter;
use common::accepted::{equal, moments};
use common::near_misses::near_misses;
use common::pairs::{disguised, MAKERS};
use common::three::each_method;
use common::{any_state, each_seed, filter, filter_of, narrow, on_axis, recipe_of, widths_of};
use reference::random::Random;
use reference::{Recipe, LARGEST_GREY};

/// What a recipe makes of a picture: grown sides, weight, and the sums by each
/// of the three methods.
struct Shown {
    sides: (usize, usize),
    weight: u64,
    sums: [Vec<u64>; 3],
}

impl Shown {
    fn new(filter: &Filter, width: usize, height: usize, pixels: &[u64]) -> Shown {
        let mut sides = (0, 0);
        let number = bore::full_size(filter, width, height, &mut sides.0, &mut sides.1);
        assert_eq!(number, 0, "{filter:?}");
        let sums = each_method(filter, width, height, pixels);
        Shown {
            sides,
            weight: moments(filter).gain,
            sums: sums.map(|sums| sums.expect("the recipe and the picture are accepted")),
        }
    }

    /// Whether sides, weight and sums agree with another's, for each method of
    /// the one with each of the other.
    fn agreements(&self, other: &Shown) -> [[bool; 3]; 3] {
        let alike = self.sides == other.sides && self.weight == other.weight;
        let sums = |one: &Vec<u64>| other.sums.each_ref().map(|sums| alike && one == sums);
        self.sums.each_ref().map(sums)
    }
}

/// All lists of up to two widths from 1 to 4 in any order, and some others.
fn small_lists() -> Vec<Vec<u8>> {
    let mut lists = vec![
        vec![],
        vec![6],
        vec![2, 2, 2],
        vec![1, 2, 3],
        vec![3, 2, 1, 1],
        vec![2, 6, 6],
        vec![3, 3, 8],
    ];
    for n in 1..=4 {
        lists.push(vec![n]);
        for m in 1..=4 {
            lists.push(vec![n, m]);
        }
    }
    lists
}

/// Every pair of recipes of small lists, on a picture of one pixel 1.
#[test]
fn one_pixel_decides() {
    let lists = small_lists();
    let mut shown = vec![];
    for rows in &lists {
        for columns in &lists {
            let filter = filter(rows, columns);
            shown.push((filter, Shown::new(&filter, 1, 1, &[1])));
        }
    }
    let mut met = [0; 2];
    for (a, shown_a) in &shown {
        for (b, shown_b) in &shown {
            let same = equal(a, b);
            let found = shown_a.agreements(shown_b);
            assert_eq!(found, [[same; 3]; 3], "{a:?}, {b:?}");
            met[usize::from(same)] += 1;
        }
    }
    assert!(met.iter().all(|&count| count >= 2000), "{met:?}");
}

/// Every near miss on a picture of one pixel 1: grown size and weight agree, the
/// sums do not.
#[test]
fn one_pixel_tells_near_misses_apart() {
    let mut random = Random::new(1);
    for [x, y] in near_misses() {
        let z = widths_of(&disguised(&mut random, &Recipe::new(&x, &[])).rows);
        let note = format_args!("{x:?}, {y:?}, {z:?}");
        for on_rows in [true, false] {
            let filters = [&x, &y, &z].map(|list| on_axis(list, on_rows));
            assert!(!equal(&filters[0], &filters[1]), "{note}");
            assert!(equal(&filters[0], &filters[2]), "{note}");
            let [x, y, z] = filters.map(|filter| Shown::new(&filter, 1, 1, &[1]));
            assert_eq!((x.sides, x.weight), (y.sides, y.weight), "{note}");
            assert_eq!(x.agreements(&y), [[false; 3]; 3], "{note}");
            assert_eq!(x.agreements(&z), [[true; 3]; 3], "{note}");
        }
    }
}

/// A small recipe and a relative of it, both accepted.
fn small_pair(random: &mut Random) -> [Filter; 2] {
    let recipe = random.valid_recipe(8);
    let maker = random.one_of(&MAKERS);
    let (mut other, _) = maker(random, &recipe);
    if reference::check(&other).is_err() {
        other = recipe.clone();
    }
    let other = disguised(random, &other);
    [recipe, other].map(|recipe| filter_of(&recipe))
}

/// Random pixels, and the sides.
fn small_picture(random: &mut Random) -> (usize, usize, Vec<u64>) {
    let (width, height) = (random.between(1, 6), random.between(1, 6));
    let pixels = random.pixels(width * height);
    (width, height, pixels)
}

/// A pair on a random picture with a pixel that is not 0, and on a black one.
fn pair_on_pictures(seed: u64) -> bool {
    let mut random = Random::new(seed);
    let [a, b] = small_pair(&mut random);
    let (width, height, mut pixels) = small_picture(&mut random);
    pixels[random.between(0, width * height - 1)] = random.between(1, LARGEST_GREY as usize) as u64;
    let same = equal(&a, &b);
    let [shown_a, shown_b] = [a, b].map(|filter| Shown::new(&filter, width, height, &pixels));
    let found = shown_a.agreements(&shown_b);
    assert_eq!(found, [[same; 3]; 3], "seed {seed}: {a:?}, {b:?}");
    let black = vec![0; width * height];
    let [dark_a, dark_b] = [a, b].map(|filter| Shown::new(&filter, width, height, &black));
    let alike = shown_a.sides == shown_b.sides && shown_a.weight == shown_b.weight;
    let found = dark_a.agreements(&dark_b);
    assert_eq!(found, [[alike; 3]; 3], "seed {seed}: {a:?}, {b:?}");
    same
}

#[test]
fn any_picture_but_a_black_one_decides() {
    each_seed(10, |seed| {
        pair_on_pictures(seed);
    });
}

#[test]
fn random_pairs_meet_both_answers() {
    let mut met = [0; 2];
    for seed in 0..1000 {
        met[usize::from(pair_on_pictures(seed))] += 1;
    }
    assert!(met.iter().all(|&count| count >= 100), "{met:?}");
}

/// The grown rows that a list of row calls and drains yields. The list may end
/// before all are out, and refused calls stand among the others.
fn yielded(random: &mut Random, filter: &Filter, picture: &[&[u8]]) -> Vec<Vec<u64>> {
    let recipe = recipe_of(filter);
    let (width, height) = (picture[0].len(), picture.len());
    let needed = reference::needed_cells(&recipe, width).expect("the recipe is accepted");
    let mut cells: Vec<u64> = (0..needed).map(|_| random.word()).collect();
    let mut state = any_state(random);
    let number = bore::start(filter, width, height, &mut cells, &mut state);
    assert_eq!(number, 0, "{filter:?}");
    let all = height + reference::reach(&recipe.columns);
    let mut rows = vec![];
    let mut count = 0;
    for j in 0..random.between(0, all) {
        while random.coin() {
            // An empty output is refused by 7 where 10 does not come first.
            let number = match random.coin() {
                true => bore::push(&mut state, picture[0], &mut [], &mut cells, &mut count),
                false => bore::drain(&mut state, &mut [], &mut cells, &mut count),
            };
            assert!(number == 7 || number == 10, "{number}, {filter:?}");
        }
        let mut out = vec![random.word(); width + reference::reach(&recipe.rows)];
        let number = match picture.get(j) {
            Some(row) => bore::push(&mut state, row, &mut out, &mut cells, &mut count),
            None => bore::drain(&mut state, &mut out, &mut cells, &mut count),
        };
        assert_eq!(number, 0, "{filter:?}");
        rows.push(out);
    }
    rows
}

/// How many rows two lists of calls both yield, for two recipes that are equal;
/// these rows have to agree.
fn rows_in_common(seed: u64) -> usize {
    let mut random = Random::new(seed);
    let recipe = random.valid_recipe(8);
    let other = disguised(&mut random, &recipe);
    let [a, b] = [recipe, other].map(|recipe| filter_of(&recipe));
    assert!(equal(&a, &b), "seed {seed}: {a:?}, {b:?}");
    let (width, _, pixels) = small_picture(&mut random);
    let pixels: Vec<u8> = narrow(&pixels);
    let picture: Vec<&[u8]> = pixels.chunks(width).collect();
    let [rows_a, rows_b] = [a, b].map(|filter| yielded(&mut random, &filter, &picture));
    let common = rows_a.len().min(rows_b.len());
    assert_eq!(
        rows_a[..common],
        rows_b[..common],
        "seed {seed}: {a:?}, {b:?}"
    );
    common
}

#[test]
fn lists_of_calls_agree_where_both_yield() {
    each_seed(10, |seed| {
        rows_in_common(seed);
    });
}

/// How many rows the first cases compare.
#[test]
fn lists_of_calls_yield_many_rows() {
    let common: usize = (0..1000).map(rows_in_common).sum();
    assert!(common >= 1000, "{common} rows");
}
