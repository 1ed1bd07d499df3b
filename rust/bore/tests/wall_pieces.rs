//! The fixed cases of document 01 ("Wall pieces to try", "Mistakes that look
//! harmless") that concern the calls on a filter, the comparing call, the exact
//! sums, these by all three methods, greys, differences and readings, and the
//! triangle of source document 001. Greys, leftovers and quotients are those of
//! document 02, by the inside weight.

mod common;

use bore::{Filter, Quantity, Sample};
use common::accepted::{blur, difference, equal, moments, round, sample};
use common::three::three_methods;
use common::{cascade_of, filter};
use reference::boxes;

/// The coefficients of an accepted list.
fn kernel(widths: &[u8]) -> Vec<u64> {
    let list = boxes(widths);
    let mut out = vec![0; reference::reach(&list) + 1];
    assert_eq!(bore::kernel(&cascade_of(&list), &mut out), 0, "{list:?}");
    out
}

fn full_size(filter: &Filter, width: usize, height: usize) -> (u8, usize, usize) {
    let (mut full_width, mut full_height) = (0, 0);
    let number = bore::full_size(filter, width, height, &mut full_width, &mut full_height);
    (number, full_width, full_height)
}

/// Whether two accepted filters are equal. The answer has to be the same in both
/// orders.
fn equal_filters(a: &Filter, b: &Filter) -> bool {
    let answer = equal(a, b);
    assert_eq!(equal(b, a), answer, "{a:?}, {b:?}");
    answer
}

/// Whether two lists are equal along the rows. The answer has to be the same
/// down the columns.
fn equal_lists(a: &[u8], b: &[u8]) -> bool {
    let along = equal_filters(&filter(a, &[]), &filter(b, &[]));
    let down = equal_filters(&filter(&[], a), &filter(&[], b));
    assert_eq!(along, down, "{a:?}, {b:?}");
    along
}

/// The exact sums of an accepted picture, by all three methods.
fn sums(rows: &[u8], columns: &[u8], width: usize, height: usize, pixels: &[u64]) -> Vec<u64> {
    let found = three_methods(&filter(rows, columns), width, height, pixels);
    found.expect("the recipe and the picture are accepted")
}

#[test]
fn coefficients() {
    assert_eq!(kernel(&[2, 2, 2, 2]), [1, 4, 6, 4, 1]);
    assert_eq!(kernel(&[3, 2]), [1, 2, 2, 1]);
    assert_eq!(kernel(&[2, 3]), [1, 2, 2, 1]);
    assert_eq!(kernel(&[4]), [1, 1, 1, 1]);
    assert_eq!(kernel(&[2, 2]), [1, 2, 1]);
    assert_eq!(kernel(&[1]), [1]);
    assert_eq!(kernel(&[]), [1]);
}

#[test]
fn same_reach_and_weight_but_other_coefficients() {
    for (list, begin) in [([2, 6, 6], [1, 3, 5]), ([3, 3, 8], [1, 3, 6])] {
        let kernel = kernel(&list);
        assert_eq!(kernel[..3], begin);
        assert_eq!(kernel.len(), 12);
        assert_eq!(moments(&filter(&list, &[])).gain, 72);
    }
}

#[test]
fn equal_and_unequal_recipes() {
    assert!(equal_lists(&[3, 2], &[2, 3]));
    assert!(!equal_lists(&[4], &[2, 2]));
    assert!(equal_lists(&[1], &[]));
}

/// On each axis reach, weight and count are the same, the widths are not.
#[test]
fn reach_weight_and_count_do_not_decide() {
    let [x, y] = [[2, 6, 6], [3, 3, 8]];
    assert!(!equal_lists(&x, &y));
    assert!(!equal_filters(&filter(&x, &y), &filter(&y, &x)));
}

#[test]
fn moments_of_twos() {
    let found = moments(&filter(&[2, 2], &[2, 2]));
    assert_eq!(found.gain, 16);
    assert_eq!((found.row_order, found.column_order), (2, 2));
    assert_eq!(found.row_variance.to_bits(), 0.5f64.to_bits());
    assert_eq!(found.column_variance.to_bits(), 0.5f64.to_bits());
}

/// The copy of document 000 has the product of count and width here.
#[test]
fn weight_of_equal_boxes_is_a_power() {
    assert_eq!(moments(&filter(&[5, 5, 5], &[])).gain, 125);
    assert_eq!(kernel(&[5, 5, 5]).iter().sum::<u64>(), 125);
}

#[test]
fn limits() {
    assert_eq!(bore::check(&filter(&[255, 2], &[])), 0);
    assert_eq!(bore::check(&filter(&[255, 3], &[])), 3);
    assert_eq!(bore::check(&filter(&[2; 22], &[2; 22])), 0);
    assert_eq!(bore::check(&filter(&[2; 23], &[2; 22])), 4);
    assert_eq!(bore::check(&filter(&[2; 22], &[2; 23])), 4);
    assert_eq!(moments(&filter(&[2; 22], &[2; 22])).gain, 1 << 44);
}

#[test]
fn sides() {
    let blur = filter(&[2, 2], &[2]);
    assert_eq!(full_size(&blur, 1024, 1024), (0, 1026, 1025));
    assert_eq!(full_size(&blur, 1025, 1024), (5, 0, 0));
    assert_eq!(full_size(&blur, 1024, 1025), (5, 0, 0));
    // The job of the paper: one pixel, rows 2,2.
    assert_eq!(full_size(&filter(&[2, 2], &[]), 1, 1), (0, 3, 1));
}

/// Width 1 needs no cell, width 2 one, a wider n needs n; the column list's
/// cells come once for each place of a grown row.
#[test]
fn cells() {
    let mut cells = 0;
    let mixed = filter(&[1, 2, 3, 9], &[2, 1, 4]);
    assert_eq!(bore::stream_cells(&mixed, 10, &mut cells), 0);
    assert_eq!(cells, (1 + 3 + 9) + (10 + 11) * (1 + 4));
    assert_eq!(bore::stream_cells(&filter(&[], &[]), 1024, &mut cells), 0);
    assert_eq!(cells, 0);
    assert_eq!(bore::stream_cells(&mixed, 1025, &mut cells), 5);
    assert_eq!(cells, 0);
}

#[test]
fn twos_give_the_printed_triangle() {
    for (n, row) in reference::TRIANGLE.iter().enumerate() {
        assert_eq!(kernel(&vec![2; n]), *row);
    }
}

#[test]
fn twos_follow_the_rule_of_the_triangle() {
    let mut row = vec![1];
    for n in 0..=44 {
        assert_eq!(kernel(&vec![2; n]), row, "{n} twos");
        assert_eq!(row.iter().sum::<u64>(), 1 << n);
        let pairs = row.windows(2).map(|pair| pair[0] + pair[1]);
        row = [1].into_iter().chain(pairs).chain([1]).collect();
    }
    let mut out = [7; 46];
    assert_eq!(bore::kernel(&cascade_of(&boxes(&[2; 45])), &mut out), 4);
    assert_eq!(out, [7; 46]);
}

#[test]
fn one_pixel_spreads() {
    assert_eq!(
        sums(&[2, 2], &[2, 2], 1, 1, &[1]),
        [1, 2, 1, 2, 4, 2, 1, 2, 1]
    );
    assert_eq!(sums(&[2, 2, 2, 2], &[], 1, 1, &[1]), [1, 4, 6, 4, 1]);
    assert_eq!(sums(&[], &[2, 2, 2, 2], 1, 1, &[1]), [1, 4, 6, 4, 1]);
    assert_eq!(sums(&[3, 2], &[], 1, 1, &[1]), [1, 2, 2, 1]);
    assert_eq!(sums(&[2, 3], &[], 1, 1, &[1]), [1, 2, 2, 1]);
    assert_eq!(sums(&[], &[3, 2], 1, 1, &[1]), [1, 2, 2, 1]);
    assert_eq!(sums(&[4], &[], 1, 1, &[1]), [1, 1, 1, 1]);
    assert_eq!(sums(&[2, 2], &[], 1, 1, &[1]), [1, 2, 1]);
    assert_eq!(sums(&[1], &[], 1, 1, &[1]), [1]);
    assert_eq!(sums(&[], &[], 1, 1, &[1]), [1]);
    assert_eq!(sums(&[2, 2], &[], 1, 1, &[255]), [255, 510, 255]);
    // The picture of the job that the paper prints.
    assert_eq!(sums(&[2, 2], &[], 1, 1, &[4]), [4, 8, 4]);
}

/// Reach, weight and count are the same, the sums are not.
#[test]
fn sums_of_equal_reach_and_weight() {
    for (list, all) in [
        ([2, 6, 6], [1, 3, 5, 7, 9, 11, 11, 9, 7, 5, 3, 1]),
        ([3, 3, 8], [1, 3, 6, 8, 9, 9, 9, 9, 8, 6, 3, 1]),
    ] {
        assert_eq!(sums(&list, &[], 1, 1, &[1]), all);
        assert_eq!(sums(&[], &list, 1, 1, &[1]), all);
    }
}

#[test]
fn three_by_three_of_a_hundred() {
    let found = sums(&[2, 2], &[2, 2], 3, 3, &[100; 9]);
    // The places that the same-size blur takes: corner, edge, centre.
    assert_eq!(found[5 + 1], 900);
    assert_eq!(found[5 + 2], 1200);
    assert_eq!(found[2 * 5 + 2], 1600);
    assert_eq!(found[3 * 5 + 3], 900);
    // Outside them the black about the picture weighs more.
    assert_eq!(found[..5], [100, 300, 400, 300, 100]);
}

#[test]
fn greys_of_three_by_three_of_a_hundred() {
    let twos = filter(&[2, 2], &[2, 2]);
    let pixels = [100; 9];
    assert_eq!(blur(&twos, 3, 3, &pixels), (vec![100; 9], vec![0; 9]));
    // The inside weights: corner, edge, centre.
    for (k, weight) in [9, 12, 9, 12, 16, 12, 9, 12, 9].into_iter().enumerate() {
        let read = |quantity| sample(&twos, 3, 3, &pixels, (k % 3, k / 3), quantity);
        assert_eq!(read(Quantity::Sum), Sample::Sum(100 * weight));
        let (gray, leftover) = (100, 0);
        assert_eq!(read(Quantity::Gray), Sample::Gray { gray, leftover });
        assert_eq!(read(Quantity::Mean), Sample::Mean(100.0));
    }
}

#[test]
fn one_two_on_two_pixels() {
    assert_eq!(sums(&[2], &[], 2, 1, &[1, 0]), [1, 1, 0]);
    assert_eq!(sums(&[], &[2], 1, 2, &[1, 0]), [1, 1, 0]);
    // The inside weights are 1 and 2.
    let expected = (vec![1, 1], vec![0, -1]);
    assert_eq!(blur(&filter(&[2], &[]), 2, 1, &[1, 0]), expected);
    assert_eq!(blur(&filter(&[], &[2]), 1, 2, &[1, 0]), expected);
}

#[test]
fn difference_of_one_pixel() {
    let empty = filter(&[], &[]);
    for twos in [filter(&[2, 2], &[]), filter(&[], &[2, 2])] {
        assert_eq!(difference([&empty, &twos], 1, 1, &[255]), [128]);
        assert_eq!(difference([&twos, &empty], 1, 1, &[255]), [-128]);
        let mean = sample(&twos, 1, 1, &[255], (0, 0), Quantity::Mean);
        assert_eq!(mean, Sample::Mean(255.0));
    }
}

/// Rounding both blurs before the difference gives 127, and not 128.
#[test]
fn blurs_are_not_rounded_before_the_difference() {
    let [a, b] = [filter(&[], &[]), filter(&[2, 2], &[])];
    let [sum_a, sum_b] = [
        sums(&[], &[], 1, 1, &[255])[0],
        sums(&[2, 2], &[], 1, 1, &[255])[1],
    ];
    let [gray_a, gray_b] = [(&a, sum_a), (&b, sum_b)].map(|(by, sum)| round(by, &[sum]).0[0]);
    assert_eq!(gray_a - gray_b, 127);
    assert_eq!(difference([&a, &b], 1, 1, &[255]), [128]);
}

/// The difference keeps the full weight: by inside weights it would be 0.
#[test]
fn differences_are_not_by_inside_weights() {
    let [a, b] = [filter(&[], &[]), filter(&[2, 2], &[])];
    let [gray_a, gray_b] = [&a, &b].map(|filter| blur(filter, 1, 1, &[255]).0[0]);
    assert_eq!((gray_a, gray_b), (255, 255));
    assert_eq!(difference([&a, &b], 1, 1, &[255]), [128]);
    assert_eq!(difference([&b, &a], 1, 1, &[255]), [-128]);
}

/// Sums are not rounded after each box: 1 2 1 and not 1 1 1 times a weight.
#[test]
fn no_box_is_rounded() {
    assert_eq!(sums(&[2, 2], &[], 1, 1, &[1]), [1, 2, 1]);
    assert_eq!(sums(&[3, 3], &[], 2, 1, &[1, 1]), [1, 3, 5, 5, 3, 1]);
}

/// Rounding after each box gives the greys 1 1 1, and not 0 1 0.
#[test]
fn greys_are_rounded_once() {
    let mut values = vec![1];
    for n in [2, 2] {
        let boxed = sums(&[n], &[], values.len(), 1, &values);
        values = round(&filter(&[n], &[]), &boxed).0;
    }
    assert_eq!(values, [1, 1, 1]);
    let grown = sums(&[2, 2], &[], 1, 1, &[1]);
    assert_eq!(round(&filter(&[2, 2], &[]), &grown).0, [0, 1, 0]);
}

/// The black places of a row are through before the next row starts: 1 1 / 1 1
/// and not 1 / 2.
#[test]
fn rows_do_not_run_into_one_another() {
    assert_eq!(sums(&[2], &[], 1, 2, &[1, 1]), [1, 1, 1, 1]);
    assert_eq!(sums(&[3], &[], 1, 2, &[1, 2]), [1, 1, 1, 2, 2, 2]);
    let both = sums(&[2, 3], &[], 1, 2, &[1, 5]);
    assert_eq!(both, [1, 2, 2, 1, 5, 10, 10, 5]);
    assert_eq!(sums(&[2], &[2], 1, 2, &[1, 1]), [1, 1, 2, 2, 1, 1]);
}

#[test]
fn sums_at_the_limits() {
    let refused = |rows: &[u8], columns: &[u8]| three_methods(&filter(rows, columns), 1, 1, &[1]);
    assert_eq!(sums(&[255, 2], &[], 1, 1, &[3])[1..255], [6; 254]);
    assert_eq!(sums(&[], &[255, 2], 1, 1, &[3])[1..255], [6; 254]);
    assert_eq!(refused(&[255, 3], &[]), Err(3));
    assert_eq!(refused(&[], &[255, 3]), Err(3));
    assert_eq!(refused(&[2; 23], &[2; 22]), Err(4));
    assert_eq!(refused(&[2; 22], &[2; 23]), Err(4));
    assert_eq!(refused(&[1, 0], &[]), Err(2));
    let mut longer = filter(&[1; 48], &[]);
    longer.rows.count = 49;
    assert_eq!(three_methods(&longer, 1, 1, &[1]), Err(1));
}

/// The largest sum is 255 times 2^44: it stands in the middle of a white
/// picture that all coefficients cover.
#[test]
fn the_largest_sum() {
    let found = sums(&[2; 22], &[2; 22], 23, 23, &[255; 23 * 23]);
    assert_eq!(found[22 * 45 + 22], 255 << 44);
    assert_eq!(found.iter().max(), Some(&(255 << 44)));
    let row = sums(&[2; 44], &[], 45, 1, &[255; 45]);
    assert_eq!(row[44], 255 << 44);
    let twos = filter(&[2; 22], &[2; 22]);
    let (grays, leftovers) = round(&twos, &[255 << 44, 1 << 43, (1 << 43) - 1]);
    assert_eq!(grays, [255, 1, 0]);
    assert_eq!(leftovers, [0, -(1 << 43), (1 << 43) - 1]);
    let bright = [(255 << 44) + 1];
    assert_eq!(bore::round(&twos, &bright, &mut [7], &mut [7]), 11);
}

#[test]
fn the_largest_sides() {
    let pixels: Vec<u64> = (0..1 << 20).map(|k| k % 251).collect();
    assert!(sums(&[], &[], 1024, 1024, &pixels) == pixels);
    assert!(sums(&[1; 48], &[1; 48], 1024, 1024, &pixels) == pixels);
    let empty = filter(&[], &[]);
    assert_eq!(three_methods(&empty, 1025, 1, &pixels[..1025]), Err(5));
    assert_eq!(three_methods(&empty, 1, 1025, &pixels[..1025]), Err(5));
}

#[test]
fn one_pixel_shows_the_printed_triangle() {
    for (n, row) in reference::TRIANGLE.iter().enumerate() {
        let twos = vec![2; n];
        assert_eq!(sums(&twos, &[], 1, 1, &[1]), *row);
        assert_eq!(sums(&[], &twos, 1, 1, &[1]), *row);
        let square = sums(&twos, &twos, 1, 1, &[1]);
        let product = |j: usize, i: usize| row[j] * row[i];
        let expected: Vec<u64> = (0..square.len())
            .map(|k| product(k / (n + 1), k % (n + 1)))
            .collect();
        assert_eq!(square, expected);
    }
}
