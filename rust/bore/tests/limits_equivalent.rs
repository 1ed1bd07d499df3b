//! The comparing call at each limit of document 01 and on fixed pairs: every
//! answer and every number stands here as the paper gives it. Nearly every call
//! is compared with the reference too.

mod common;

use bore::{Cascade, Filter};
use common::accepted::{equal, moments};
use common::agree::Answer;
use common::causes::{from_bits, with_refusals};
use common::{agree, filter, list_of_reach, on_axis, shuffled};
use common::{Case, ABOVE, BELOW, WRAPPED};
use reference::random::Random;

/// Compares the call on two filters, which has to give this answer.
fn expect(random: &mut Random, a: Filter, b: Filter, expected: Answer) {
    let [a, b] = [a, b].map(|filter| Case::fixed(random, filter));
    let answer = agree::equivalent(&a, &b, random);
    assert_eq!(answer, expected, "{a:?}, {b:?}");
}

/// Compares the call on two filters in both orders, with the same answer.
fn expect_both_ways(random: &mut Random, a: Filter, b: Filter, expected: Answer) {
    expect(random, a, b, expected);
    expect(random, b, a, expected);
}

/// One of the four lists of two filters.
fn list_at(filters: &mut [Filter; 2], place: usize) -> &mut Cascade {
    let filter = &mut filters[place / 2];
    match place % 2 {
        0 => &mut filter.rows,
        _ => &mut filter.columns,
    }
}

/// Filters without a width above 1 are all equal. Any other is equal to none of
/// them.
#[test]
fn empty_lists_and_ones() {
    let mut random = Random::new(1);
    let lists: [&[u8]; 4] = [&[], &[1], &[1, 1], &[1; 48]];
    let mut filters = vec![];
    for rows in lists {
        filters.extend(lists.map(|columns| filter(rows, columns)));
    }
    for &a in &filters {
        for &b in &filters {
            expect(&mut random, a, b, Ok(true));
        }
        for n in [2, 3, 255] {
            let [wider, higher] = [true, false].map(|on_rows| on_axis(&[n], on_rows));
            expect_both_ways(&mut random, a, wider, Ok(false));
            expect_both_ways(&mut random, a, higher, Ok(false));
            expect_both_ways(&mut random, wider, higher, Ok(false));
        }
    }
}

/// Every count of every list. All widths are 1, or one of them is a 2, which
/// has a meaning where the count goes past it.
#[test]
fn every_count_of_every_list() {
    let mut random = Random::new(2);
    for place in 0..4 {
        for count in 0..=255 {
            for two_at in [None, Some(0), Some(1), Some(30), Some(47)] {
                let mut filters = [filter(&[1; 48], &[1; 48]); 2];
                let list = list_at(&mut filters, place);
                list.count = count;
                if let Some(at) = two_at {
                    list.widths[at] = 2;
                }
                let counted = two_at.is_some_and(|at| at < usize::from(count));
                let expected = if count > 48 { Err(1) } else { Ok(!counted) };
                expect(&mut random, filters[0], filters[1], expected);
            }
        }
    }
}

/// 48 widths of which one or two are not 1, at every two places.
#[test]
fn every_place_of_full_lists() {
    for i in 0..48 {
        for j in 0..48 {
            let [mut a, mut b] = [[1; 48]; 2];
            a[i] = 7;
            b[j] = 7;
            let mut c = b;
            c[(j + 1) % 48] = 2;
            for on_rows in [true, false] {
                let [a, b, c] = [a, b, c].map(|list| on_axis(&list, on_rows));
                assert!(equal(&a, &b), "places {i} and {j}");
                assert!(!equal(&a, &c), "places {i} and {j}");
                assert!(!equal(&c, &a), "places {i} and {j}");
            }
        }
    }
}

#[test]
fn width_0_at_any_place_of_every_list() {
    let mut random = Random::new(3);
    for place in 0..4 {
        for at in 0..48 {
            // Just past the count it does not matter.
            for (count, expected) in [
                (at, Ok(true)),
                (at + 1, Err(2)),
                (48, Err(2)),
                (49, Err(1)),
                (255, Err(1)),
            ] {
                let mut filters = [filter(&[1; 48], &[1; 48]); 2];
                let list = list_at(&mut filters, place);
                list.widths[usize::from(at)] = 0;
                list.count = count;
                expect(&mut random, filters[0], filters[1], expected);
            }
        }
    }
}

/// Each width beside each, alone and between two 1s, and each along the rows
/// beside itself down the columns.
#[test]
fn every_width_beside_every_other() {
    for n in 1..=255 {
        for m in 1..=255 {
            for on_rows in [true, false] {
                let [a, b] = [n, m].map(|n| on_axis(&[n], on_rows));
                assert_eq!(equal(&a, &b), n == m, "{n} and {m}");
                let b = on_axis(&[1, m, 1], on_rows);
                assert_eq!(equal(&a, &b), n == m, "{n} and 1, {m}, 1");
            }
        }
        let crossed = equal(&on_axis(&[n], true), &on_axis(&[n], false));
        assert_eq!(crossed, n == 1, "{n} along and {n} down");
    }
}

/// Every number of equal widths beside every other, as far as they are accepted.
#[test]
fn every_number_of_equal_widths() {
    let mut random = Random::new(4);
    for (n, most) in [(1, 48), (2, 44), (3, 27), (4, 22), (16, 11), (128, 2)] {
        for i in 0..=most {
            for j in 0..=most {
                let expected = Ok(n == 1 || i == j);
                for on_rows in [true, false] {
                    let [a, b] = [i, j].map(|times| on_axis(&vec![n; times], on_rows));
                    expect(&mut random, a, b, expected);
                }
            }
        }
    }
}

#[test]
fn reach_at_the_limit() {
    let mut random = Random::new(5);
    let fixed: [(&[u8], &[u8], Answer); 9] = [
        (&[255], &[255], Ok(true)),
        (&[255, 2], &[2, 255], Ok(true)),
        (&[255, 2], &[1, 255, 1, 1, 2, 1], Ok(true)),
        (&[128, 129], &[129, 128], Ok(true)),
        (&[255, 2], &[254, 3], Ok(false)),
        (&[255, 2], &[255, 1, 1], Ok(false)),
        (&[128, 129], &[255, 2], Ok(false)),
        (&[255, 2], &[255, 3], Err(3)),
        (&[255, 2], &[255, 2, 2], Err(3)),
    ];
    for (a, b, expected) in fixed {
        for on_rows in [true, false] {
            let [a, b] = [a, b].map(|list| on_axis(list, on_rows));
            expect_both_ways(&mut random, a, b, expected);
        }
        expect_both_ways(&mut random, filter(a, a), filter(b, b), expected);
    }
}

#[test]
fn any_order_of_lists_with_the_largest_reach() {
    let mut random = Random::new(6);
    let mut met = 0;
    for _ in 0..300 {
        let list = list_of_reach(&mut random, 255, 254);
        let other = shuffled(&mut random, &list);
        let weight: u128 = list.iter().map(|&n| u128::from(n)).product();
        if weight <= 1 << 44 {
            let [a, b] = [list, other].map(|list| filter(&list, &[]));
            expect_both_ways(&mut random, a, b, Ok(true));
            met += 1;
        }
    }
    assert!(met >= 200, "{met} lists");
}

#[test]
fn weight_at_the_limit() {
    let mut random = Random::new(7);
    // All of these but the last three weigh 2^44; no two are equal.
    let lists: [(&[u8], &[u8]); 9] = [
        (&[2; 22], &[2; 22]),
        (&[2; 44], &[]),
        (&[], &[2; 44]),
        (&[4; 22], &[]),
        (&[4; 11], &[2; 22]),
        (&[16; 6], &[16; 5]),
        (&BELOW, &[]),
        (&[], &BELOW),
        (&BELOW[..8], &BELOW[8..]),
    ];
    for (i, (rows, columns)) in lists.into_iter().enumerate() {
        for (j, (other_rows, other_columns)) in lists.into_iter().enumerate() {
            let a = filter(rows, columns);
            let [rows, columns] = [other_rows, other_columns].map(|list| {
                let ones = vec![1; random.between(0, 48 - list.len())];
                shuffled(&mut random, &[list, &ones].concat())
            });
            expect(&mut random, a, filter(&rows, &columns), Ok(i == j));
        }
        for (rows, columns) in [
            (&[2; 23][..], &[2; 22][..]),
            (&[2; 22], &[2; 23]),
            (&ABOVE, &[]),
            (&[], &WRAPPED),
        ] {
            let (a, b) = (filter(rows, columns), filter(lists[i].0, lists[i].1));
            expect_both_ways(&mut random, a, b, Err(4));
        }
    }
}

/// The lowest number that applies, 0 if none does.
fn lowest(wished: [bool; 4]) -> u8 {
    let place = wished.into_iter().position(|wished| wished);
    place.map_or(0, |place| place as u8 + 1)
}

/// Every choice of the first recipe's causes together with every choice of the
/// second's: the first recipe's number comes before the second's.
#[test]
fn the_first_recipe_is_refused_before_the_second() {
    let mut random = Random::new(8);
    for bits in 0..256 {
        let wished: [bool; 8] = from_bits(bits);
        let [a, b] = [0, 4].map(|from| std::array::from_fn(|i| wished[from + i]));
        let expected = match (lowest(a), lowest(b)) {
            // All widths are 1 here.
            (0, 0) => Ok(true),
            (0, number) => Err(number),
            (number, _) => Err(number),
        };
        for _ in 0..16 {
            let [a, b] = [a, b].map(|causes| {
                let on_rows = from_bits(random.between(0, 15));
                with_refusals(&mut random, causes, on_rows)
            });
            expect(&mut random, a, b, expected);
        }
    }
}

/// Whatever the lent byte holds, an accepted call writes 0 or 1 and a refused
/// one leaves it.
#[test]
fn every_byte_before_the_call() {
    let [blur, other] = [filter(&[2, 3], &[4]), filter(&[3, 3], &[4])];
    let again = filter(&[3, 2], &[1, 4]);
    for before in 0..=255 {
        for (b, expected) in [(again, 1), (other, 0)] {
            let mut same = before;
            assert_eq!(bore::equivalent(&blur, &b, &mut same), 0);
            assert_eq!(same, expected, "{before} before");
        }
        for (list, number) in [(&[0][..], 2), (&[255, 3], 3), (&[2; 45], 4)] {
            let refused = filter(&[], list);
            for (a, b) in [(&refused, &blur), (&blur, &refused), (&refused, &refused)] {
                let mut same = before;
                assert_eq!(bore::equivalent(a, b, &mut same), number);
                assert_eq!(same, before, "{number}");
            }
        }
    }
}

#[test]
fn rows_are_not_columns() {
    let mut random = Random::new(9);
    for (a, b, expected) in [
        (filter(&[2, 3], &[]), filter(&[], &[2, 3]), false),
        (filter(&[3], &[2]), filter(&[2], &[3]), false),
        (filter(&[2, 2], &[2, 2]), filter(&[2, 2], &[]), false),
        (filter(&[3, 2], &[2, 1]), filter(&[2, 3], &[2]), true),
    ] {
        expect_both_ways(&mut random, a, b, Ok(expected));
    }
}

#[test]
fn scale_card_and_count_do_not_decide() {
    let mut random = Random::new(10);
    for on_rows in [true, false] {
        let lists = [[2, 6, 7, 15], [3, 3, 10, 14]];
        let [a, b] = lists.map(|list| on_axis(&list, on_rows));
        assert_eq!(moments(&a), moments(&b));
        expect_both_ways(&mut random, a, b, Ok(false));
    }
}
