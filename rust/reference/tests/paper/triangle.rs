//! The triangle of source document 001: the coefficients of a list of N twos,
//! with row 8 as document 01 mends it.

use crate::{coefficients, columns, rows};
use reference::{direct, weight, TRIANGLE};

/// The row as the copy of 001 prints it.
const PRINTED_ROW_8: [u64; 9] = [1, 8, 28, 56, 70, 56, 35, 8, 1];

#[test]
fn twos_give_the_rows_of_the_triangle() {
    for (n, row) in TRIANGLE.iter().enumerate() {
        let twos = vec![2; n];
        assert_eq!(coefficients(&twos, n + 1).unwrap(), *row);
        assert_eq!(row.iter().sum::<u64>(), 1 << n);
        assert_eq!(weight(&rows(&twos)), 1 << n);
    }
}

#[test]
fn one_pixel_shows_the_triangle_on_either_axis() {
    for (n, row) in TRIANGLE.iter().enumerate() {
        let twos = vec![2; n];
        let out = direct(&rows(&twos), 1, 1, &[1], n + 1, 1, n + 1).unwrap();
        assert_eq!(
            (out.r, out.c, out.sums),
            (row.to_vec(), vec![1], row.to_vec())
        );
        let out = direct(&columns(&twos), 1, 1, &[1], 1, n + 1, n + 1).unwrap();
        assert_eq!(
            (out.r, out.c, out.sums),
            (vec![1], row.to_vec(), row.to_vec())
        );
    }
}

#[test]
fn printed_row_8_is_a_misprint() {
    assert_ne!(PRINTED_ROW_8, *TRIANGLE[8]);
    assert_ne!(PRINTED_ROW_8.iter().sum::<u64>(), 256);
    assert_eq!(TRIANGLE[8][5..], [56, 28, 8, 1]);
}

#[test]
fn weight_of_equal_boxes_is_a_power() {
    // Document 000 in its copy has the product of count and width here.
    assert_eq!(weight(&rows(&[5, 5, 5])), 125);
    assert_eq!(
        coefficients(&[5, 5, 5], 13).unwrap().iter().sum::<u64>(),
        125
    );
}
