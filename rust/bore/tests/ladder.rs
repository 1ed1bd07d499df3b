//! The fading ladder of document 02 beside the reference, on random levels and
//! pictures, with slices of right and wrong lengths; beside pass by pass and the
//! one pass; each level beside the one below; and at each limit, where every
//! number stands as the paper gives it. BORE_CASES and BORE_SEED set the random
//! cases as they do for the calls on a filter.

mod common;

use bore::Axes;
use common::agree_ladder::{any_level, ladder, reference_axes, size, some_recipe, OUTSIDE};
use common::causes::{first, from_bits};
use common::pictures::{any_cells, any_length, any_picture, any_sides, larger_picture};
use common::pictures::{repaint, Picture, REFUSED};
use common::three::{passes, stream, BEFORE};
use common::{each_seed, filter, filter_of, meets, narrow};
use reference::random::Random;
use reference::{Grid, Recipe};
use std::ops::RangeInclusive;

const AXES: [Axes; 2] = [Axes::Rows, Axes::Both];

/// The widths of level 8; each level below has one fewer, level 1 three.
const WIDTHS: [u8; 10] = [2, 3, 4, 6, 8, 12, 16, 24, 32, 48];

/// By how much an axis with the widths of levels 1 to 8 grows.
const GROWTH: [usize; 8] = [6, 11, 18, 29, 44, 67, 98, 145];

/// The levels that are accepted on these axes.
fn accepted(axes: Axes) -> RangeInclusive<usize> {
    match axes {
        Axes::Rows => 1..=8,
        Axes::Both => 1..=5,
    }
}

/// Axes and an accepted level.
fn any_rung(random: &mut Random) -> (usize, Axes) {
    let axes = random.one_of(&AXES);
    let levels = accepted(axes);
    (random.between(*levels.start(), *levels.end()), axes)
}

/// A picture of accepted sides, mostly small.
fn small_picture(random: &mut Random) -> Picture {
    let [width, height] = [(); 2].map(|_| {
        let most = random.one_of(&[1, 12, 12, 40]);
        random.between(1, most)
    });
    let mut picture = Picture::random(random, width, height, width * height);
    repaint(random, &mut picture.pixels);
    picture
}

/// The sides of a picture at a level, by the growth written out.
fn grown_sides(level: usize, axes: Axes, picture: &Picture) -> (usize, usize) {
    let growth = GROWTH[level - 1];
    match axes {
        Axes::Rows => (picture.width + growth, picture.height),
        Axes::Both => (picture.width + growth, picture.height + growth),
    }
}

/// The sums that the library leaves at an accepted level, with buffers of just
/// the right lengths.
fn sums(level: usize, axes: Axes, picture: &Picture) -> Grid {
    let (width, height) = grown_sides(level, axes, picture);
    let mut values = vec![BEFORE; width * height];
    let mut cells = values.clone();
    let pixels: Vec<u8> = narrow(&picture.pixels);
    let (w, h) = (picture.width, picture.height);
    let number = bore::ladder(level, axes, w, h, &pixels, &mut values, &mut cells);
    assert_eq!(number, 0, "level {level}, {axes:?}, {w} by {h}");
    Grid {
        width,
        height,
        values,
    }
}

/// The random call of a seed: its level, its axes and its number.
fn random_call(seed: u64) -> (usize, Axes, u8) {
    let mut random = Random::new(seed);
    let (level, axes) = (any_level(&mut random), random.one_of(&AXES));
    let recipe = some_recipe(&mut random, level, axes);
    let (width, height) = any_sides(&mut random, &Recipe::default());
    let picture = any_picture(&mut random, width, height);
    let right = match width.max(height) {
        0..=1024 => size(&recipe, width, height),
        _ => random.between(0, 20),
    };
    let lengths = [
        any_length(&mut random, right),
        any_cells(&mut random, right),
    ];
    let number = ladder(&mut random, level, axes, &picture, lengths);
    (level, axes, number)
}

#[test]
fn ladder_agrees() {
    each_seed(5, |seed| {
        random_call(seed);
    });
}

/// Pass by pass and the one pass with the level's recipe give the same sums.
fn agrees_with_methods(level: usize, axes: Axes, picture: &Picture) {
    let list = &WIDTHS[..level + 2];
    let filter = match axes {
        Axes::Rows => filter(list, &[]),
        Axes::Both => filter(list, list),
    };
    let (width, height) = (picture.width, picture.height);
    let pixels: Vec<u8> = narrow(&picture.pixels);
    let found = Ok(sums(level, axes, picture).values);
    let note = format_args!("level {level}, {axes:?}, {width} by {height}");
    let by_passes = passes(&filter, width, height, &pixels);
    assert!(by_passes == found, "pass by pass: {note}");
    let by_stream = stream(&filter, width, height, &pixels);
    assert!(by_stream == found, "one pass: {note}");
}

/// The library's sums are those of the level below, worked by the new width.
fn follows_from_below(level: usize, axes: Axes, picture: &Picture) {
    let below = sums(level - 1, axes, picture);
    let expected = reference::from_below(level, reference_axes(axes), &below);
    let found = sums(level, axes, picture);
    let (width, height) = (picture.width, picture.height);
    let note = format_args!("level {level}, {axes:?}, {width} by {height}");
    assert!(found == expected, "{note}");
}

#[test]
fn ladder_agrees_with_the_methods() {
    each_seed(20, |seed| {
        let mut random = Random::new(seed);
        let (level, axes) = any_rung(&mut random);
        agrees_with_methods(level, axes, &small_picture(&mut random));
    });
}

#[test]
fn each_level_follows_from_the_one_below() {
    each_seed(100, |seed| {
        let mut random = Random::new(seed);
        let picture = small_picture(&mut random);
        let axes = random.one_of(&AXES);
        for level in accepted(axes).skip(1) {
            follows_from_below(level, axes, &picture);
        }
    });
}

/// Pictures with sides up to 1,024.
#[test]
fn larger_pictures_agree() {
    each_seed(2500, |seed| {
        let mut random = Random::new(seed);
        let (level, axes) = any_rung(&mut random);
        let picture = larger_picture(&mut random);
        let (width, height) = grown_sides(level, axes, &picture);
        let cells = width * height + random.between(0, 9);
        let number = ladder(&mut random, level, axes, &picture, [width * height, cells]);
        assert_eq!(number, 0, "level {level}, {axes:?}");
        agrees_with_methods(level, axes, &picture);
        if level > 1 {
            follows_from_below(level, axes, &picture);
        }
    });
}

/// How often the first cases meet each number, and each level that is accepted.
#[test]
fn random_cases_meet_every_number_and_level() {
    let mut numbers = [[0; 17]; 2];
    let mut levels = [[0; 9]; 2];
    for seed in 0..2000 {
        let (level, axes, number) = random_call(seed);
        let both = usize::from(axes == Axes::Both);
        numbers[both][usize::from(number)] += 1;
        if number == 0 {
            levels[both][level] += 1;
        }
    }
    assert!(meets(&numbers[0], &[0, 5, 6, 7, 8, 16]), "{numbers:?}");
    assert!(meets(&numbers[1], &[0, 4, 5, 6, 7, 8, 16]), "{numbers:?}");
    assert!(meets(&levels[0], &[1, 2, 3, 4, 5, 6, 7, 8]), "{levels:?}");
    assert!(meets(&levels[1], &[1, 2, 3, 4, 5]), "{levels:?}");
}

/// The coefficients of 2, 3, 4, and with 6.
#[test]
fn one_pixel() {
    let picture = Picture {
        width: 1,
        height: 1,
        pixels: vec![1],
    };
    let level_1 = [1, 3, 5, 6, 5, 3, 1];
    let level_2 = [1, 4, 9, 15, 20, 23, 23, 20, 15, 9, 4, 1];
    assert_eq!(sums(1, Axes::Rows, &picture).values, level_1);
    assert_eq!(sums(2, Axes::Rows, &picture).values, level_2);
    for (level, list) in [(1, &level_1[..]), (2, &level_2)] {
        let products = list.iter().flat_map(|c| list.iter().map(move |r| r * c));
        let found = sums(level, Axes::Both, &picture).values;
        assert!(found.into_iter().eq(products), "level {level}");
    }
}

/// The largest picture at the highest levels, all white: the sums of each level
/// add up to the weight times all pixels, and the middle is 255 times the weight.
#[test]
fn largest_white_picture() {
    let picture = Picture {
        width: 1024,
        height: 1024,
        pixels: vec![255; 1024 * 1024],
    };
    for (axes, level, weight) in [
        (Axes::Rows, 7, 169_869_312),
        (Axes::Rows, 8, 8_153_726_976),
        (Axes::Both, 4, 191_102_976),
        (Axes::Both, 5, 48_922_361_856),
    ] {
        let Grid { width, values, .. } = sums(level, axes, &picture);
        let total: u128 = values.iter().map(|&sum| u128::from(sum)).sum();
        let note = format_args!("level {level}, {axes:?}");
        assert_eq!(total, u128::from(weight) * (255 << 20), "{note}");
        assert_eq!(values[512 * width + 512], 255 * weight, "{note}");
        assert_eq!(values.iter().max(), Some(&(255 * weight)), "{note}");
        assert_eq!((values[0], values[values.len() - 1]), (255, 255), "{note}");
    }
}

/// On a picture 5 by 3: the output goes by the grown size of the level itself.
#[test]
fn slices_are_judged_in_order() {
    let mut random = Random::new(1);
    for axes in AXES {
        for level in accepted(axes) {
            let grown = |level: usize| match axes {
                Axes::Rows => (5 + GROWTH[level - 1]) * 3,
                Axes::Both => (5 + GROWTH[level - 1]) * (3 + GROWTH[level - 1]),
            };
            let size = grown(level);
            let others = [grown(level.max(2) - 1), grown(level.min(7) + 1)];
            let others = others.into_iter().filter(|&other| other != size);
            let mut cases = vec![
                ([15, size, size], 0),
                ([15, size, size + 1], 0),
                ([15, size, 2 * size + 7], 0),
                ([15, size, size - 1], 8),
                ([15, size, 15], 8),
                ([15, size, 0], 8),
                ([15, size - 1, size], 7),
                ([15, size + 1, size + 1], 7),
                ([15, 15, size], 7),
                ([15, 0, 0], 7),
                ([14, size, size], 6),
                ([16, size, size], 6),
                ([size, size, size], 6),
                ([0, 0, 0], 6),
            ];
            cases.extend(others.map(|other| ([15, other, 40_000], 7)));
            for ([pixels, out, cells], number) in cases {
                let picture = Picture::random(&mut random, 5, 3, pixels);
                let found = ladder(&mut random, level, axes, &picture, [out, cells]);
                let note = format_args!("{pixels} pixels, lengths {out}, {cells}");
                assert_eq!(found, number, "level {level}, {axes:?}, {note}");
            }
            for (width, height) in REFUSED {
                for lengths in [[size, size], [0, 0]] {
                    for pixels in [0, 1, 15] {
                        let picture = Picture::random(&mut random, width, height, pixels);
                        let found = ladder(&mut random, level, axes, &picture, lengths);
                        assert_eq!(found, 5, "level {level}, {axes:?}, {width} by {height}");
                    }
                }
            }
        }
    }
}

/// A level outside 1 to 8 gets 16, and levels 6 to 8 on both axes get 4, with
/// buffers that are right for any level and with all that can be wrong.
#[test]
fn refused_levels() {
    let mut random = Random::new(2);
    let heavy = [6, 7, 8].map(|level| (level, Axes::Both, 4));
    let outside = AXES.map(|axes| OUTSIDE.map(|level| (level, axes, 16)));
    for (level, axes, number) in heavy.into_iter().chain(outside.into_iter().flatten()) {
        let note = format_args!("level {level}, {axes:?}");
        for like in 1..=8 {
            let picture = Picture::random(&mut random, 5, 3, 15);
            let (width, height) = grown_sides(like, axes, &picture);
            let lengths = [width * height, width * height];
            let found = ladder(&mut random, level, axes, &picture, lengths);
            assert_eq!(found, number, "{note}, buffers of level {like}");
        }
        for (width, height) in REFUSED {
            let picture = Picture::random(&mut random, width, height, 15);
            let found = ladder(&mut random, level, axes, &picture, [33, 33]);
            assert_eq!(found, number, "{note}, {width} by {height}");
        }
        for lengths in [[0, 0], [33, 0], [0, 33]] {
            let picture = Picture::random(&mut random, 5, 3, 14);
            let found = ladder(&mut random, level, axes, &picture, lengths);
            assert_eq!(found, number, "{note}, lengths {lengths:?}");
        }
    }
}

/// A call on a picture 3 by 2 to which these causes of refusal apply: a level
/// outside 1 to 8, one above 5, a side, the pixels, the output, the cells.
fn call_with_causes(random: &mut Random, axes: Axes, causes: [bool; 6]) -> u8 {
    let [outside, heavy, side, pixels, output, few] = causes;
    let level = match (outside, heavy) {
        (true, _) => random.one_of(&OUTSIDE),
        (_, true) => random.between(6, 8),
        _ => random.between(1, 5),
    };
    let recipe = some_recipe(random, level, axes);
    let right = size(&recipe, 3, 2);
    let width = match side {
        true => random.one_of(&[0, 1025, (1 << 32) + 3]),
        false => 3,
    };
    let length = match pixels {
        true => random.one_of(&[0, 5, 7]),
        false => 6,
    };
    let out = match output {
        true => random.one_of(&[6, right - 1, right + 1]),
        false => right,
    };
    let cells = match few {
        true => random.between(0, right - 1),
        false => right + random.between(0, 3),
    };
    let picture = Picture::random(random, width, 2, length);
    ladder(random, level, axes, &picture, [out, cells])
}

/// Every choice of causes. Along the rows no level is too heavy.
#[test]
fn the_first_of_several_refusals_wins() {
    let mut random = Random::new(3);
    for bits in 0..64 {
        for axes in AXES.repeat(8) {
            let causes = from_bits(bits);
            let found = call_with_causes(&mut random, axes, causes);
            let mut applies = causes;
            applies[1] &= axes == Axes::Both;
            let number = first(applies, [16, 4, 5, 6, 7, 8]);
            assert_eq!(found, number, "{axes:?}, {causes:?}");
        }
    }
}

/// The recipe of each level, by the checks of the library: 4 on both axes from
/// level 6 on.
#[test]
fn the_numbers_of_the_recipes() {
    for axes in AXES {
        for level in 1..=8 {
            let recipe = some_recipe(&mut Random::new(4), level, axes);
            let found = bore::check(&filter_of(&recipe));
            let heavy = axes == Axes::Both && level >= 6;
            assert_eq!(found, if heavy { 4 } else { 0 }, "level {level}, {axes:?}");
        }
    }
}
