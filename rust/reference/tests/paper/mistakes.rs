//! The four mistakes that look harmless, and one that document 02 makes likely.
//! Each test makes the mistake, finds the wrong numbers, which document 01 quotes
//! for its four, and finds the right ones here.

use crate::{blur, one_pass, rows, subtract, sums};
use reference::{grey, reach, round_row, same, weight, Recipe};

#[test]
fn rounding_after_each_box() {
    let mut values = vec![1];
    for n in [2, 2] {
        let boxed = sums(&rows(&[n]), values.len(), 1, &values);
        values = boxed.iter().map(|&sum| grey(sum, n.into())).collect();
    }
    assert_eq!(values, [1, 1, 1]);

    let recipe = rows(&[2, 2]);
    let right = sums(&recipe, 1, 1, &[1]);
    assert_eq!(round_row(&recipe, &right, [3; 2]).unwrap().greys, [0, 1, 0]);
}

#[test]
fn rounding_both_blurs_before_the_difference() {
    let (a, b) = (rows(&[]), rows(&[2, 2]));
    let rounded = |recipe: &Recipe, sum| round_row(recipe, &[sum], [1; 2]).unwrap().greys[0];
    assert_eq!(sums(&a, 1, 1, &[255])[0], 255);
    assert_eq!(sums(&b, 1, 1, &[255])[1], 510);
    assert_eq!(rounded(&a, 255) - rounded(&b, 510), 127);

    assert_eq!(subtract(&a, &b, 1, 1, &[255]), [128]);
}

/// Document 02 leaves the full weight to the difference.
#[test]
fn dividing_the_difference_by_inside_weights() {
    let (a, b) = (rows(&[]), rows(&[2, 2]));
    let (grey_a, grey_b) = (blur(&a, 1, 1, &[255]).0[0], blur(&b, 1, 1, &[255]).0[0]);
    assert_eq!((grey_a, grey_b), (255, 255));

    assert_eq!(subtract(&a, &b, 1, 1, &[255]), [128]);
}

#[test]
fn judging_recipes_by_reach_weight_and_count() {
    let (a, b) = (rows(&[2, 6, 6]), rows(&[3, 3, 8]));
    let judged = |recipe: &Recipe| (reach(&recipe.rows), weight(recipe), recipe.rows.len());
    assert_eq!(judged(&a), judged(&b));

    assert_eq!(same(&a, &b), Ok(false));
    let shown = |recipe| sums(recipe, 1, 1, &[1])[2];
    assert_eq!((shown(&a), shown(&b)), (5, 6));
}

#[test]
fn starting_a_row_before_the_black_places_are_through() {
    let mut previous = 0;
    let mut wrong = Vec::new();
    for pixel in [1, 1] {
        wrong.push(previous + pixel);
        previous = pixel;
    }
    assert_eq!(wrong, [1, 2]);

    assert_eq!(sums(&rows(&[2]), 1, 2, &[1, 1]), [1, 1, 1, 1]);
    assert_eq!(one_pass(&rows(&[2]), 1, 2, &[1, 1]).0, [1, 1, 1, 1]);
}
