//! The difference of two recipes at each limit of document 01: every number and
//! every value stands here as the paper gives it, and nearly every call is
//! compared with the reference too.

mod common;

use bore::Filter;
use common::accepted;
use common::agree_greys::difference;
use common::causes::{first, from_bits, with_refusals};
use common::pictures::{Picture, REFUSED};
use common::{filter, Case, ABOVE, BELOW};
use reference::random::Random;

/// The call on two filters and a random picture of these sides, with lengths
/// that are right as far as the filters and the sides are accepted.
fn called(random: &mut Random, a: Filter, b: Filter, width: usize, height: usize) -> u8 {
    let [a, b] = [a, b].map(|filter| Case::fixed(random, filter));
    let size = width * height;
    let needed = reference::difference_cells(&a.recipe(), &b.recipe(), width, height);
    let picture = Picture::random(random, width, height, size);
    difference([&a, &b], random, &picture, [size, needed.unwrap_or(0)])
}

/// Rows 2,3 and columns 2,2 beside rows 2 and columns 3. On a picture 5 by 3 the
/// grown pictures have 8 times 5 and 6 times 5 sums, so 140 cells are needed.
#[test]
fn difference_refuses_in_order() {
    let mut random = Random::new(1);
    let [a, b] = [filter(&[2, 3], &[2, 2]), filter(&[2], &[3])];
    let [a, b] = [a, b].map(|filter| Case::fixed(&mut random, filter));
    for ([pixels, out, cells], number) in [
        ([15, 15, 140], 0),
        ([15, 15, 141], 0),
        ([15, 15, 1000], 0),
        ([15, 15, 139], 8),
        ([15, 15, 80], 8),
        ([15, 15, 60], 8),
        ([15, 15, 0], 8),
        ([15, 14, 140], 7),
        ([15, 16, 140], 7),
        ([15, 30, 140], 7),
        ([15, 14, 139], 7),
        ([15, 0, 0], 7),
        ([14, 15, 140], 6),
        ([16, 15, 140], 6),
        ([0, 0, 0], 6),
    ] {
        let picture = Picture::random(&mut random, 5, 3, pixels);
        let found = difference([&a, &b], &mut random, &picture, [out, cells]);
        assert_eq!(found, number, "{pixels} pixels, lengths {out}, {cells}");
        let found = difference([&b, &a], &mut random, &picture, [out, cells]);
        assert_eq!(found, number, "{pixels} pixels, lengths {out}, {cells}");
    }
    for (width, height) in REFUSED {
        for lengths in [[15, 140], [0, 0]] {
            for pixels in [0, 1, 15] {
                let picture = Picture::random(&mut random, width, height, pixels);
                let found = difference([&a, &b], &mut random, &picture, lengths);
                assert_eq!(found, 5, "{width} by {height}");
            }
        }
    }
}

/// Two accepted recipes to which just the wished ones of 12 and 13 apply.
fn pair_with_refusals(random: &mut Random, parity: bool, heavy: bool) -> [Filter; 2] {
    let (a, b): (&[u8], &[u8]) = match (parity, heavy) {
        (false, false) => (&[2], &[4]),
        (true, false) => (&[2], &[3]),
        (false, true) => (&[2; 22], &[2; 24]),
        (true, true) => (&[2; 22], &[2; 23]),
    };
    let mut pair = match random.coin() {
        true => [filter(a, &[3]), filter(b, &[])],
        false => [filter(&[5], a), filter(&[], b)],
    };
    if random.coin() {
        pair.reverse();
    }
    pair
}

/// Every choice of causes: 1 to 4 of the first recipe, those of the second, then
/// 5, 6, 7, 8, 12, 13.
#[test]
fn the_first_refusal_in_order_wins() {
    let mut random = Random::new(2);
    for bits in 0..1 << 14 {
        let wished: [bool; 14] = from_bits(bits);
        let [side, pixels, output, few, parity, heavy] = std::array::from_fn(|i| wished[8 + i]);
        let mut pair = pair_with_refusals(&mut random, parity, heavy);
        for (place, filter) in pair.iter_mut().enumerate() {
            let causes: [bool; 4] = std::array::from_fn(|i| wished[4 * place + i]);
            if causes.contains(&true) {
                let on_rows = from_bits(random.between(0, 15));
                *filter = with_refusals(&mut random, causes, on_rows);
            }
        }
        let [a, b] = pair.map(|filter| Case::fixed(&mut random, filter));
        let needed = reference::difference_cells(&a.recipe(), &b.recipe(), 2, 1).unwrap_or(20);
        let height = if side { random.one_of(&[0, 1025]) } else { 1 };
        let given = Picture::random(&mut random, 2, height, if pixels { 3 } else { 2 });
        let out = if output { random.one_of(&[1, 3]) } else { 2 };
        let cells = if few { needed - 1 } else { needed };
        let found = difference([&a, &b], &mut random, &given, [out, cells]);
        let number = first(wished, [1, 2, 3, 4, 1, 2, 3, 4, 5, 6, 7, 8, 12, 13]);
        assert_eq!(found, number, "{wished:?}, {a:?}, {b:?}");
    }
}

/// Every pair of small reaches on each axis: 12 where they differ in parity.
#[test]
fn parity_on_each_axis() {
    let mut random = Random::new(3);
    for reaches in 0..256 {
        let [i, j, k, l] = [0, 2, 4, 6].map(|from| reaches >> from & 3);
        let list = |reach: usize| [reach as u8 + 1];
        let a = filter(&list(i), &list(j));
        let b = filter(&list(k), &list(l));
        let differs = i % 2 != k % 2 || j % 2 != l % 2;
        let found = called(&mut random, a, b, 3, 2);
        assert_eq!(found, if differs { 12 } else { 0 }, "{a:?}, {b:?}");
    }
}

/// Reaches up to 255, and those of long lists.
#[test]
fn parity_of_long_reaches() {
    let mut random = Random::new(4);
    for (a, b, number) in [
        (&[255, 2][..], &[255][..], 12),
        (&[255, 2], &[2], 0),
        (&[255], &[], 0),
        (&[128, 129], &[254], 0),
        (&[128, 129], &[253], 12),
        (&[1; 48], &[2; 11], 12),
        (&[1; 48], &[2; 12], 0),
        (&[2; 22], &[2; 22], 0),
        (&[2; 21], &[2; 23], 0),
    ] {
        let [rows, columns] = [filter(a, &[]), filter(&[], a)];
        let found = called(&mut random, rows, filter(b, &[]), 2, 3);
        assert_eq!(found, number, "{a:?}, {b:?} along");
        let found = called(&mut random, filter(&[], b), columns, 2, 3);
        assert_eq!(found, number, "{b:?}, {a:?} down");
    }
}

#[test]
fn weight_product_at_the_limit() {
    let mut random = Random::new(5);
    let (below, above) = (BELOW.split_at(8), ABOVE.split_at(7));
    let others = [3, 3, 3, 5, 7, 13, 19, 37, 73];
    for (a, b, number) in [
        (filter(&[2; 22], &[2; 22]), filter(&[], &[]), 0),
        (filter(&[2; 22], &[2; 22]), filter(&[1; 48], &[1]), 0),
        (filter(&[2; 22], &[2; 22]), filter(&[3], &[]), 13),
        (filter(&[2; 22], &[2; 22]), filter(&[2; 22], &[2; 22]), 13),
        (filter(&[2; 11], &[2; 11]), filter(&[2; 11], &[2; 11]), 0),
        (filter(&[2; 11], &[2; 11]), filter(&[2; 11], &[2; 13]), 13),
        (filter(&[2; 22], &[]), filter(&[], &[2; 22]), 0),
        (filter(&[2; 22], &[]), filter(&[2, 2], &[2; 22]), 13),
        (filter(&[16; 5], &[]), filter(&[16], &[4; 10]), 0),
        (filter(&[3; 13], &[]), filter(&[], &[3; 14]), 0),
        (filter(&[3; 14], &[]), filter(&[], &[3; 14]), 13),
        // 2^44 - 256, 2^44 + 11,952, and twice 2^44 - 306,016.
        (filter(&[2; 8], &[109]), filter(&[], &others), 0),
        (filter(above.0, &[]), filter(&[], above.1), 13),
        (filter(below.0, &[]), filter(&[2], below.1), 13),
    ] {
        for (a, b) in [(a, b), (b, a)] {
            let found = called(&mut random, a, b, 2, 2);
            assert_eq!(found, number, "{a:?}, {b:?}");
        }
    }
}

/// One pixel, its value less a fraction of it. A half goes away from zero.
#[test]
fn values_about_the_half() {
    let empty = filter(&[], &[]);
    for value in 0..=255 {
        for (b, expected) in [
            // Less all, a half, a third, a quarter, a 255th and a 65,025th.
            (empty, 0),
            (filter(&[2, 2], &[]), (value + 1) / 2),
            (filter(&[], &[3]), (4 * value + 3) / 6),
            (filter(&[2, 2], &[2, 2]), (3 * value + 2) / 4),
            (filter(&[255], &[]), (508 * value + 255) / 510),
            (filter(&[255], &[255]), value),
        ] {
            let found = accepted::difference([&empty, &b], 1, 1, &[value as u64]);
            assert_eq!(found, [expected], "{value}, {b:?}");
            let found = accepted::difference([&b, &empty], 1, 1, &[value as u64]);
            assert_eq!(found, [-expected], "{value}, {b:?}");
        }
    }
}
