//! The calls on a filter at each limit of document 01: every number stands here
//! as the paper gives it, and every call is compared with the reference too.

mod common;

use bore::{Cascade, Filter};
use common::causes::{from_bits, with_refusals};
use common::{agree, filter, list_of, list_of_reach, refilled, shuffled};
use common::{Case, ABOVE, BELOW, EQUAL, WRAPPED};
use reference::boxes;
use reference::random::Random;

/// Widths and heights at the limits and far beyond them.
const SIDES: [usize; 10] = [
    0,
    1,
    2,
    1023,
    1024,
    1025,
    65_537,
    1 << 32,
    (1 << 32) + 7,
    usize::MAX,
];

fn axis(filter: &mut Filter, on_rows: bool) -> &mut Cascade {
    if on_rows {
        &mut filter.rows
    } else {
        &mut filter.columns
    }
}

/// Compares all calls on one filter, which `check` has to answer by `number`.
fn all_calls(random: &mut Random, filter: Filter, number: u8) {
    let case = Case::fixed(random, filter);
    assert_eq!(agree::check(&case), number, "{case:?}");
    assert_eq!(agree::moments(&case, random), number, "{case:?}");
    assert_eq!(agree::full_size(&case, random, 7, 5), number, "{case:?}");
    assert_eq!(agree::stream_cells(&case, random, 7), number, "{case:?}");
    for cascades in case.axes() {
        let right = reference::reach(&list_of(cascades[0])) + 1;
        for length in [0, right - 1, right, right + 1] {
            agree::kernel(&case, random, cascades, length);
        }
    }
}

#[test]
fn every_count_on_either_axis() {
    let mut random = Random::new(1);
    for count in 0..=255 {
        for on_rows in [true, false] {
            let mut filter = filter(&[1; 48], &[2, 3]);
            if !on_rows {
                std::mem::swap(&mut filter.rows, &mut filter.columns);
            }
            axis(&mut filter, on_rows).count = count;
            all_calls(&mut random, filter, u8::from(count > 48));
        }
    }
}

#[test]
fn counts_at_the_limits_on_both_axes() {
    let mut random = Random::new(2);
    let counts = [0, 1, 48, 49, 255];
    for row_count in counts {
        for column_count in counts {
            let mut filter = filter(&[1; 48], &[1; 48]);
            filter.rows.widths[0] = 2;
            filter.columns.widths[47] = 3;
            filter.rows.count = row_count;
            filter.columns.count = column_count;
            let refused = row_count > 48 || column_count > 48;
            all_calls(&mut random, filter, u8::from(refused));
        }
    }
}

#[test]
fn width_0_at_any_place() {
    let mut random = Random::new(3);
    for place in 0..48 {
        for on_rows in [true, false] {
            // Just past the count it does not matter.
            for (count, number) in [(place, 0), (place + 1, 2), (48, 2), (49, 1), (255, 1)] {
                let mut filter = filter(&[1; 48], &[1; 48]);
                let cascade = axis(&mut filter, on_rows);
                cascade.widths[usize::from(place)] = 0;
                cascade.count = count;
                all_calls(&mut random, filter, number);
            }
        }
    }
}

#[test]
fn reach_at_the_limit() {
    let mut random = Random::new(4);
    let fixed: [(&[u8], u8); 8] = [
        (&[255, 2], 0),
        (&[255, 3], 3),
        (&[128, 129], 0),
        (&[129, 129], 3),
        (&[16; 17], 4),
        (&[17; 16], 3),
        (&[6; 48], 4),
        (&[255; 48], 3),
    ];
    for (list, number) in fixed {
        all_calls(&mut random, filter(list, &[]), number);
        all_calls(&mut random, filter(&[], list), number);
        all_calls(&mut random, filter(list, &[2, 3]), number);
    }
    for reach in [254, 255, 256, 257] {
        for _ in 0..200 {
            // Few widths, so that the weight of one axis is accepted.
            let list = list_of_reach(&mut random, reach, 254);
            let weight: u128 = list.iter().map(|&n| u128::from(n)).product();
            if weight <= 1 << 40 && list.len() <= 48 {
                let number = if reach > 255 { 3 } else { 0 };
                all_calls(&mut random, filter(&list, &[4]), number);
                all_calls(&mut random, filter(&[1, 2], &list), number);
            }
        }
    }
}

#[test]
fn weight_at_the_limit() {
    let mut random = Random::new(5);
    let mut lists = vec![
        (BELOW.to_vec(), 0),
        (ABOVE.to_vec(), 4),
        (WRAPPED.to_vec(), 4),
        (vec![1; 96], 0),
    ];
    for (n, times) in EQUAL {
        let accepted = [(2, 43), (2, 44), (4, 22), (16, 11)].contains(&(n, times));
        lists.push((vec![n; times], if accepted { 0 } else { 4 }));
    }
    for (list, number) in lists {
        let list = shuffled(&mut random, &list);
        let reach = |widths| reference::reach(&boxes(widths));
        for cut in 0..=list.len() {
            let (rows, columns) = list.split_at(cut);
            let lengths_fit = rows.len() <= 48 && columns.len() <= 48;
            if lengths_fit && reach(rows) <= 255 && reach(columns) <= 255 {
                all_calls(&mut random, filter(rows, columns), number);
            }
        }
    }
}

#[test]
fn the_lowest_of_several_refusals_wins() {
    let mut random = Random::new(6);
    for wished in 0..16 {
        let wished: [bool; 4] = from_bits(wished);
        let lowest = wished.iter().position(|&w| w).map_or(0, |i| i as u8 + 1);
        for on_rows in 0..16 {
            let filter = with_refusals(&mut random, wished, from_bits(on_rows));
            all_calls(&mut random, filter, lowest);
            let case = Case::fixed(&mut random, filter);
            let or_5 = if lowest > 0 { lowest } else { 5 };
            for side in [0, 1025, usize::MAX] {
                let random = &mut random;
                assert_eq!(agree::full_size(&case, random, side, 1), or_5, "{case:?}");
                assert_eq!(agree::full_size(&case, random, 1, side), or_5, "{case:?}");
                assert_eq!(agree::stream_cells(&case, random, side), or_5, "{case:?}");
            }
        }
    }
}

#[test]
fn kernel_refuses_in_order() {
    let mut random = Random::new(7);
    for wished in 0..16 {
        let wished: [bool; 4] = from_bits(wished);
        let lowest = wished.iter().position(|&w| w).map_or(0, |i| i as u8 + 1);
        let filter = with_refusals(&mut random, wished, [true; 4]);
        let case = Case::fixed(&mut random, filter);
        let cascades = case.axes()[0];
        let right = reference::reach(&list_of(cascades[0])) + 1;
        for length in [0, right - 1, right, right + 1, 10 * right] {
            let number = match (lowest, length == right) {
                (0, true) => 0,
                (0, false) => 7,
                _ => lowest,
            };
            let found = agree::kernel(&case, &mut random, cascades, length);
            assert_eq!(found, number, "length {length}, {case:?}");
        }
    }
}

/// The weight and the reach of the other axis do not count.
#[test]
fn kernel_takes_one_axis_alone() {
    let mut random = Random::new(8);
    for other in [&[2; 44][..], &[0], &[255, 255]] {
        for twos in [0, 1, 43, 44] {
            let case = Case::fixed(&mut random, filter(&vec![2; twos], other));
            let found = agree::kernel(&case, &mut random, case.axes()[0], twos + 1);
            assert_eq!(found, 0, "{case:?}");
        }
    }
}

#[test]
fn kernel_takes_one_length_alone() {
    let mut random = Random::new(9);
    let lists: [&[u8]; 7] = [&[], &[1], &[2], &[1; 48], &[2; 44], &[255, 2], &[9, 1, 4]];
    for list in lists {
        let case = Case::fixed(&mut random, filter(list, list));
        let right = reference::reach(&boxes(list)) + 1;
        for length in (0..300).chain([1023, 1024, 65_536, (1 << 20) + right]) {
            for cascades in case.axes() {
                let found = agree::kernel(&case, &mut random, cascades, length);
                let number = if length == right { 0 } else { 7 };
                assert_eq!(found, number, "length {length}, {case:?}");
            }
        }
    }
}

#[test]
fn sides_at_the_limits() {
    let mut random = Random::new(10);
    let refused = |side: usize| side == 0 || side > 1024;
    for (rows, columns) in [
        (&[][..], &[][..]),
        (&[255, 2], &[3, 2, 1]),
        (&[2], &[128, 129]),
    ] {
        let case = Case::fixed(&mut random, filter(rows, columns));
        for width in SIDES {
            let number = if refused(width) { 5 } else { 0 };
            let found = agree::stream_cells(&case, &mut random, width);
            assert_eq!(found, number, "{width}, {case:?}");
            for height in SIDES {
                let number = if refused(width) || refused(height) {
                    5
                } else {
                    0
                };
                let found = agree::full_size(&case, &mut random, width, height);
                assert_eq!(found, number, "{width} by {height}, {case:?}");
            }
        }
    }
}

/// Every width alone: its variance by n times n - 1, its cells.
#[test]
fn every_width_alone() {
    let mut random = Random::new(11);
    for n in 1..=255u8 {
        for (rows, columns) in [(&[n][..], &[][..]), (&[], &[n]), (&[n], &[n])] {
            all_calls(&mut random, filter(rows, columns), 0);
        }
        let filter = refilled(&mut random, &filter(&[n], &[]));
        let mut moments = bore::Moments::default();
        assert_eq!(bore::moments(&filter, &mut moments), 0);
        let exact = u64::from(n) * u64::from(n) - 1;
        let expected = (exact as f64 / 12.0).to_bits();
        assert_eq!(moments.row_variance.to_bits(), expected, "width {n}");
        assert_eq!(moments.column_variance.to_bits(), 0, "width {n}");
    }
}
