//! Random pictures: the definition beside other ways to the same numbers, which
//! are written out here, and the calls beside one another.

use crate::{blur, columns, one_pass, rows, subtract, sums};
use reference::random::Random;
use reference::{
    boresums, coefficients_of, grown_sides, inside_weight, inside_weights, pixels_of, read_job,
    reading, round_row, same, weight, BoxFilter, Choice, Reading, Recipe,
};

/// Puts one box on every row of a picture w wide: each output is the plain sum
/// of the n places that end there, s apart.
fn box_on_rows(picture: &[u64], w: usize, one: BoxFilter) -> Vec<u64> {
    let (n, s) = (usize::from(one.width), usize::from(one.spread));
    let mut out = Vec::new();
    for row in picture.chunks(w) {
        for i in 0..w + (n - 1) * s {
            let inside = (0..w).filter(|&x| x <= i && i < x + n * s && (i - x) % s == 0);
            out.push(inside.map(|x| row[x]).sum());
        }
    }
    out
}

fn turned(picture: &[u64], w: usize) -> Vec<u64> {
    let h = picture.len() / w;
    let places = (0..w).flat_map(|x| (0..h).map(move |y| (x, y)));
    places.map(|(x, y)| picture[y * w + x]).collect()
}

/// The grown picture, box by box.
fn box_by_box(recipe: &Recipe, h: usize, pixels: &[u64]) -> Vec<u64> {
    let mut picture = pixels.to_vec();
    for &one in &recipe.rows {
        picture = box_on_rows(&picture, picture.len() / h, one);
    }
    let width = picture.len() / h;
    picture = turned(&picture, width);
    for &one in &recipe.columns {
        picture = box_on_rows(&picture, picture.len() / width, one);
    }
    turned(&picture, picture.len() / width)
}

/// A small random recipe and picture.
fn random_case(random: &mut Random) -> (Recipe, usize, usize, Vec<u64>) {
    let recipe = random.valid_recipe(12);
    let (w, h) = (random.between(1, 7), random.between(1, 7));
    let pixels = random.pixels(w * h);
    (recipe, w, h, pixels)
}

#[test]
fn definition_agrees_with_box_by_box() {
    let mut random = Random::new(1);
    for _ in 0..300 {
        let (recipe, w, h, pixels) = random_case(&mut random);
        let expected = box_by_box(&recipe, h, &pixels);
        assert_eq!(sums(&recipe, w, h, &pixels), expected);
        assert_eq!(one_pass(&recipe, w, h, &pixels).0, expected);
    }
}

#[test]
fn definition_agrees_with_box_by_box_at_the_limits() {
    let mut random = Random::new(2);
    for _ in 0..20 {
        for recipe in [
            random.recipe_of_length(48),
            random.recipe_of_reach(255),
            random.recipe_of_full_weight(),
            random.recipe_just_below(),
        ] {
            let pixels = random.pixels(6);
            let expected = box_by_box(&recipe, 2, &pixels);
            assert_eq!(sums(&recipe, 3, 2, &pixels), expected);
        }
    }
}

#[test]
fn all_sums_together_are_weight_times_all_pixels() {
    let mut random = Random::new(3);
    for _ in 0..200 {
        let (recipe, w, h, pixels) = random_case(&mut random);
        let total: u128 = sums(&recipe, w, h, &pixels)
            .iter()
            .map(|&s| u128::from(s))
            .sum();
        let light: u128 = pixels.iter().map(|&p| u128::from(p)).sum();
        assert_eq!(total, weight(&recipe) * light);
    }
}

#[test]
fn coefficients_read_the_same_from_both_ends() {
    let mut random = Random::new(4);
    for _ in 0..200 {
        let list = random.valid_recipe(255).rows;
        let ahead = coefficients_of(&list);
        let back: Vec<u64> = ahead.iter().rev().copied().collect();
        assert_eq!(ahead, back);
    }
}

/// The picture places of a case, each with the grown place that the blur takes.
fn places(recipe: &Recipe, w: usize, h: usize) -> Vec<((usize, usize), usize)> {
    let (width, height) = grown_sides(recipe, w, h).unwrap();
    let (left, top) = ((width - w) / 2, (height - h) / 2);
    let all = (0..h).flat_map(|y| (0..w).map(move |x| (x, y)));
    all.map(|(x, y)| ((x, y), (y + top) * width + x + left))
        .collect()
}

#[test]
fn blur_and_readings_go_by_the_inside_weight() {
    let mut random = Random::new(6);
    for _ in 0..100 {
        let (recipe, w, h, pixels) = random_case(&mut random);
        let all = sums(&recipe, w, h, &pixels);
        let ones = sums(&recipe, w, h, &vec![1; w * h]);
        let rounded = round_row(&recipe, &all, [all.len(); 2]).unwrap();
        let (greys, leftovers) = blur(&recipe, w, h, &pixels);
        for (k, (place, at)) in places(&recipe, w, h).into_iter().enumerate() {
            let (sum, inside) = (all[at], ones[at]);
            let grey = (sum + inside / 2) / inside;
            let leftover = sum as i64 - (inside * grey) as i64;
            assert_eq!((greys[k], leftovers[k]), (grey, leftover));
            let half = inside as i64 / 2;
            assert!(-half <= leftover && leftover < inside as i64 - half);
            let read = |choice| reading(&recipe, w, h, &pixels, place, choice).unwrap();
            assert_eq!(read(Choice::Grey), Reading::Grey(grey, leftover));
            assert_eq!(read(Choice::Sum), Reading::Sum(sum));
            let quotient = sum as f64 / inside as f64;
            assert_eq!(read(Choice::Quotient), Reading::Quotient(quotient));
            if u128::from(inside) == weight(&recipe) {
                let whole = (rounded.greys[at], rounded.leftovers[at]);
                assert_eq!((grey, leftover), whole);
            }
        }
    }
}

/// What of a list's coefficients falls inside at each place of a side.
fn axis_weights(list: &[BoxFilter], side: usize) -> Vec<u64> {
    let all = coefficients_of(list);
    let half = (all.len() - 1) / 2;
    let inside = |i: usize, a: usize| a <= i + half && i + half - a < side;
    (0..side)
        .map(|i| {
            (0..all.len())
                .filter(|&a| inside(i, a))
                .map(|a| all[a])
                .sum()
        })
        .collect()
}

#[test]
fn an_inside_weight_is_the_product_of_both_axes() {
    let mut random = Random::new(5);
    for _ in 0..300 {
        let (recipe, w, h, _) = random_case(&mut random);
        let across = axis_weights(&recipe.rows, w);
        let down = axis_weights(&recipe.columns, h);
        let inside = inside_weights(&recipe, w, h);
        for (k, (place, _)) in places(&recipe, w, h).into_iter().enumerate() {
            let product = across[place.0] * down[place.1];
            assert_eq!(inside[k], product);
            assert_eq!(inside_weight(&recipe, w, h, place), product);
            assert!(0 < product && u128::from(product) <= weight(&recipe));
        }
    }
}

#[test]
fn plain_pictures_stay_plain() {
    let mut random = Random::new(17);
    for _ in 0..100 {
        let (recipe, w, h, _) = random_case(&mut random);
        let any = random.grey();
        for grey in [0, 1, 100, 255, any] {
            let plain = vec![grey; w * h];
            let expected = (plain.clone(), vec![0; w * h]);
            assert_eq!(blur(&recipe, w, h, &plain), expected);
            for (place, _) in places(&recipe, w, h) {
                let quotient = reading(&recipe, w, h, &plain, place, Choice::Quotient);
                assert_eq!(quotient, Ok(Reading::Quotient(grey as f64)));
            }
        }
    }
}

#[test]
fn difference_turns_its_sign_and_is_0_for_equal_recipes() {
    let mut random = Random::new(7);
    for _ in 0..100 {
        let (w, h) = (random.between(1, 7), random.between(1, 7));
        let pixels = random.pixels(w * h);
        let odd = random.coin();
        let list = |random: &mut Random| match odd {
            true => vec![random.one_of(&[2, 4, 6])],
            false => vec![random.one_of(&[1, 3, 5])],
        };
        let a = Recipe::new(&list(&mut random), &[3]);
        let b = Recipe::new(&list(&mut random), &[2, 2]);
        let there = subtract(&a, &b, w, h, &pixels);
        let back: Vec<i64> = subtract(&b, &a, w, h, &pixels).iter().map(|v| -v).collect();
        assert_eq!(there, back);
        assert_eq!(subtract(&a, &a, w, h, &pixels), vec![0; w * h]);
    }
}

#[test]
fn shuffled_recipes_with_ones_are_the_same() {
    let mut random = Random::new(8);
    for _ in 0..100 {
        let recipe = random.valid_recipe(40);
        let mut other = recipe.clone();
        other.rows.reverse();
        other.columns.retain(|one| one.width != 1);
        assert_eq!(same(&recipe, &other), Ok(true));
        if let Some(first) = other.rows.first_mut() {
            first.width = if first.width == 1 { 2 } else { 1 };
            if let Ok(equal) = same(&recipe, &other) {
                assert!(!equal);
            }
        }
    }
}

/// All rising lists of up to three widths from 1 to 9.
fn short_lists() -> Vec<Vec<u8>> {
    let mut lists = vec![vec![]];
    for a in 1..=9 {
        lists.push(vec![a]);
        for b in a..=9 {
            lists.push(vec![a, b]);
            lists.extend((b..=9).map(|c| vec![a, b, c]));
        }
    }
    lists
}

/// With widths of 1 struck out, every width occurs as often in the one list as
/// in the other.
fn same_counts(x: &[u8], y: &[u8]) -> bool {
    let count = |list: &[u8], n: u8| list.iter().filter(|&&m| m == n).count();
    (2..=255).all(|n| count(x, n) == count(y, n))
}

#[test]
fn same_coefficients_are_the_same_counts_of_widths() {
    let lists = short_lists();
    let mut equal = 0;
    for x in &lists {
        for y in &lists {
            let expected = Ok(same_counts(x, y));
            assert_eq!(same(&rows(x), &rows(y)), expected, "{x:?}, {y:?}");
            assert_eq!(same(&columns(x), &columns(y)), expected, "{x:?}, {y:?}");
            equal += usize::from(expected == Ok(true));
        }
    }
    // With widths of 1 struck out, 4 of the lists are empty, 3 are each one of
    // 8 widths, 2 each one of 36 pairs, 1 each one of 120 triples.
    assert_eq!((lists.len(), equal), (220, 352));
}

#[test]
fn program_prints_the_sums_of_random_jobs() {
    let mut random = Random::new(9);
    for _ in 0..100 {
        let bytes = random.job(8, 8);
        let job = read_job(&bytes).unwrap();
        let pixels = pixels_of(&bytes[job.offset..]);
        let all = sums(&job.recipe, job.w, job.h, &pixels);
        let (width, height) = grown_sides(&job.recipe, job.w, job.h).unwrap();
        let text = boresums(&bytes);
        assert!(text.ends_with('\n') && text.lines().count() == height + 1);
        let numbers: Vec<u64> = text
            .split_whitespace()
            .map(|number| number.parse().unwrap())
            .collect();
        let head = [width as u64, height as u64, weight(&job.recipe) as u64];
        assert_eq!(numbers[..3], head);
        assert_eq!(numbers[3..], all);
    }
}
