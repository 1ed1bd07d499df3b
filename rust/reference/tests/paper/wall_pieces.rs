//! The cases under "Wall pieces to try", with the greys, leftovers and quotients
//! that document 02 gives them.

use crate::{blur, coefficients, columns, one_pass, rows, subtract, sums};
use reference::{
    check, difference_of_sums, exact_sums, grown_sides, inside_weights, job_length, needed_cells,
    reading, round_row, same, scale_card, weight, Choice, Reading, Recipe,
};

#[test]
fn twos_on_both_axes_spread_one_pixel() {
    let recipe = Recipe::new(&[2, 2], &[2, 2]);
    let expected = [1, 2, 1, 2, 4, 2, 1, 2, 1];
    assert_eq!(sums(&recipe, 1, 1, &[1]), expected);
    assert_eq!(one_pass(&recipe, 1, 1, &[1]).0, expected);
    assert_eq!(grown_sides(&recipe, 1, 1), Ok((3, 3)));
    assert_eq!(weight(&recipe), 16);
}

#[test]
fn four_twos_have_binomial_coefficients() {
    assert_eq!(coefficients(&[2, 2, 2, 2], 5), Ok(vec![1, 4, 6, 4, 1]));
}

#[test]
fn order_of_widths_does_not_matter() {
    assert_eq!(coefficients(&[3, 2], 4), Ok(vec![1, 2, 2, 1]));
    assert_eq!(coefficients(&[2, 3], 4), Ok(vec![1, 2, 2, 1]));
    assert_eq!(same(&rows(&[3, 2]), &rows(&[2, 3])), Ok(true));
    assert_eq!(same(&columns(&[3, 2]), &columns(&[2, 3])), Ok(true));
}

#[test]
fn four_is_not_two_twos() {
    assert_eq!(same(&rows(&[4]), &rows(&[2, 2])), Ok(false));
    assert_eq!(same(&columns(&[2, 2]), &columns(&[4])), Ok(false));
}

#[test]
fn width_one_is_the_empty_list() {
    assert_eq!(same(&rows(&[1]), &rows(&[])), Ok(true));
    assert_eq!(same(&columns(&[]), &columns(&[1, 1])), Ok(true));
}

#[test]
fn rows_are_not_columns() {
    assert_eq!(same(&rows(&[2]), &columns(&[2])), Ok(false));
}

#[test]
fn equal_reach_and_weight_with_unequal_coefficients() {
    let a = coefficients(&[2, 6, 6], 12).unwrap();
    let b = coefficients(&[3, 3, 8], 12).unwrap();
    assert_eq!(a[..3], [1, 3, 5]);
    assert_eq!(b[..3], [1, 3, 6]);
    for list in [[2, 6, 6], [3, 3, 8]] {
        let card = scale_card(&rows(&list)).unwrap();
        assert_eq!((card.row_reach, card.weight), (11, 72));
    }
    assert_eq!(same(&rows(&[2, 6, 6]), &rows(&[3, 3, 8])), Ok(false));
}

#[test]
fn three_by_three_of_a_hundred() {
    let recipe = Recipe::new(&[2, 2], &[2, 2]);
    let pixels = [100; 9];
    assert_eq!(blur(&recipe, 3, 3, &pixels), (vec![100; 9], vec![0; 9]));
    let inside = [9, 12, 9, 12, 16, 12, 9, 12, 9];
    assert_eq!(inside_weights(&recipe, 3, 3), inside);
    for (k, weight) in inside.into_iter().enumerate() {
        let at = |choice| reading(&recipe, 3, 3, &pixels, (k % 3, k / 3), choice);
        assert_eq!(at(Choice::Sum), Ok(Reading::Sum(100 * weight)));
        assert_eq!(at(Choice::Grey), Ok(Reading::Grey(100, 0)));
        assert_eq!(at(Choice::Quotient), Ok(Reading::Quotient(100.0)));
    }
}

/// Of four coefficients two, three and three fall on the three pixels.
#[test]
fn a_four_on_three_pixels() {
    let recipe = rows(&[4]);
    let pixels = [10, 20, 45];
    assert_eq!(inside_weights(&recipe, 3, 1), [2, 3, 3]);
    assert_eq!(sums(&recipe, 3, 1, &pixels)[1..4], [30, 75, 75]);
    let expected = (vec![15, 25, 25], vec![0, 0, 0]);
    assert_eq!(blur(&recipe, 3, 1, &pixels), expected);
    assert_eq!(blur(&columns(&[4]), 1, 3, &pixels), expected);
    let rounded = round_row(&recipe, &[30, 75, 75], [3; 2]).unwrap();
    assert_eq!(rounded.greys, [8, 19, 19]);
    assert_eq!(rounded.leftovers, [-2, -1, -1]);
}

#[test]
fn one_two_on_two_pixels() {
    let recipe = rows(&[2]);
    assert_eq!(sums(&recipe, 2, 1, &[1, 0]), [1, 1, 0]);
    assert_eq!(one_pass(&recipe, 2, 1, &[1, 0]).0, [1, 1, 0]);
    assert_eq!(inside_weights(&recipe, 2, 1), [1, 2]);
    assert_eq!(blur(&recipe, 2, 1, &[1, 0]), (vec![1, 1], vec![0, -1]));
}

#[test]
fn difference_of_a_half_goes_away_from_zero() {
    let (a, b) = (rows(&[]), rows(&[2, 2]));
    assert_eq!(subtract(&a, &b, 1, 1, &[255]), [128]);
    assert_eq!(subtract(&b, &a, 1, 1, &[255]), [-128]);
    assert_eq!(difference_of_sums(255, 1, 510, 4), 128);
    assert_eq!(difference_of_sums(510, 4, 255, 1), -128);
    let quotient = reading(&b, 1, 1, &[255], (0, 0), Choice::Quotient);
    assert_eq!(quotient, Ok(Reading::Quotient(255.0)));
}

#[test]
fn variance_of_two_twos() {
    let card = scale_card(&rows(&[2, 2])).unwrap();
    assert_eq!(card.row_variance, 0.5);
    assert_eq!(card.column_variance, 0.0);
    let card = scale_card(&columns(&[2, 2])).unwrap();
    assert_eq!(card.column_variance, 0.5);
    assert_eq!((card.row_reach, card.column_reach), (0, 2));
}

#[test]
fn variance_of_each_width_is_divided_once() {
    for n in 1..=255u8 {
        let whole = u32::from(n) * u32::from(n) - 1;
        let card = scale_card(&rows(&[n])).unwrap();
        assert_eq!(
            card.row_variance.to_bits(),
            (f64::from(whole) / 12.0).to_bits()
        );
    }
    assert_eq!(
        scale_card(&rows(&[255])).unwrap().row_variance,
        65_024.0 / 12.0
    );
    let card = scale_card(&rows(&[2, 2, 5])).unwrap();
    assert_eq!(card.row_variance, 2.5);
}

#[test]
fn reach_limit() {
    for axis in [rows, columns] {
        assert_eq!(check(&axis(&[255, 2])), Ok(()));
        assert_eq!(check(&axis(&[255, 3])), Err(3));
    }
}

#[test]
fn weight_limit() {
    assert_eq!(check(&Recipe::new(&[2; 22], &[2; 22])), Ok(()));
    assert_eq!(weight(&Recipe::new(&[2; 22], &[2; 22])), 17_592_186_044_416);
    assert_eq!(check(&Recipe::new(&[2; 23], &[2; 22])), Err(4));
    assert_eq!(check(&Recipe::new(&[2; 22], &[2; 23])), Err(4));
}

#[test]
fn side_limit() {
    let empty = Recipe::default();
    let long = [7; 1025];
    assert_eq!(
        exact_sums(&empty, 1024, 1, &long[..1024]).unwrap(),
        [7; 1024]
    );
    assert_eq!(
        exact_sums(&empty, 1, 1024, &long[..1024]).unwrap(),
        [7; 1024]
    );
    assert_eq!(exact_sums(&empty, 1025, 1, &long), Err(5));
    assert_eq!(exact_sums(&empty, 1, 1025, &long), Err(5));
    assert_eq!(grown_sides(&empty, 1024, 1024), Ok((1024, 1024)));
    assert_eq!(job_length(&empty, 1024, 1024), Ok(11 + 1024 * 1024));
    assert_eq!(needed_cells(&empty, 1024), Ok(0));
    assert_eq!(needed_cells(&empty, 1025), Err(5));
    assert_eq!(needed_cells(&empty, 0), Err(5));
}

#[test]
fn largest_sum_fits_52_bits_and_is_white() {
    let recipe = Recipe::new(&[2; 22], &[2; 22]);
    let pixels = [255; 23 * 23];
    let r = reading(&recipe, 23, 23, &pixels, (11, 11), Choice::Sum);
    let most = 255 * (1u64 << 44);
    assert_eq!(r, Ok(Reading::Sum(most)));
    assert!(most < 1 << 52);
    let white = round_row(&recipe, &[most], [1; 2]).unwrap();
    assert_eq!((white.greys, white.leftovers), (vec![255], vec![0]));
    assert_eq!(round_row(&recipe, &[most + 1], [1; 2]), Err(11));
}
