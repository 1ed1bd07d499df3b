//! The readings at each limit of document 01, greys, leftovers and quotients by
//! the inside weight of document 02: every number and every value stands here as
//! the papers give it, and nearly every call is compared with the reference too,
//! for all three quantities.

mod common;

use bore::{Filter, Quantity, Sample};
use common::accepted;
use common::agree_greys::sample;
use common::causes::{first, from_bits, with_refusals};
use common::pictures::{Picture, REFUSED};
use common::{filter, Case};
use reference::boxes;
use reference::random::Random;

/// Places outside a picture 5 by 3. Some would have the index of a place inside
/// if only the index were judged, of these some modulo 2^64.
const OUTSIDE: [(usize, usize); 14] = [
    (5, 0),
    (0, 3),
    (5, 3),
    (5, 2),
    (4, 3),
    (6, 1),
    (14, 0),
    (1025, 1),
    (1, 1025),
    (usize::MAX, 1),
    (1, usize::MAX),
    (usize::MAX, usize::MAX),
    (usize::MAX - 4, 1),
    (0, 3_689_348_814_741_910_324),
];

fn both() -> Filter {
    filter(&[2, 3], &[2, 2])
}

#[test]
fn readings_refuse_in_order() {
    let mut random = Random::new(1);
    let case = Case::fixed(&mut random, both());
    for (pixels, number) in [(15, 0), (14, 6), (16, 6), (40, 6), (0, 6)] {
        let picture = Picture::random(&mut random, 5, 3, pixels);
        for place in [(0, 0), (4, 0), (0, 2), (4, 2), (2, 1)] {
            let found = sample(&case, &mut random, &picture, place);
            assert_eq!(found, number, "{pixels} pixels, {place:?}");
        }
        for place in OUTSIDE {
            let found = sample(&case, &mut random, &picture, place);
            let number = if number == 0 { 15 } else { number };
            assert_eq!(found, number, "{pixels} pixels, {place:?}");
        }
    }
    for (width, height) in REFUSED {
        for pixels in [0, 1, 15] {
            let picture = Picture::random(&mut random, width, height, pixels);
            for place in [(0, 0), (4, 2), (5, 3)] {
                let found = sample(&case, &mut random, &picture, place);
                assert_eq!(found, 5, "{width} by {height}, {place:?}");
            }
        }
    }
}

/// Every choice of causes, those of the recipe on either axis.
#[test]
fn the_lowest_of_several_refusals_wins() {
    let mut random = Random::new(2);
    for bits in 0..128 {
        let wished: [bool; 7] = from_bits(bits);
        let [_, _, _, _, side, pixels, outside] = wished;
        let causes = std::array::from_fn(|i| wished[i]);
        for on_rows in 0..16 {
            let filter = with_refusals(&mut random, causes, from_bits(on_rows));
            let case = Case::fixed(&mut random, filter);
            let height = if side { random.one_of(&[0, 1025]) } else { 2 };
            let given = Picture::random(&mut random, 3, height, if pixels { 7 } else { 6 });
            let place = match outside {
                true => random.one_of(&[(3, 0), (0, 1025), (usize::MAX, 1)]),
                false => (2, 1),
            };
            let found = sample(&case, &mut random, &given, place);
            let number = first(wished, [1, 2, 3, 4, 5, 6, 15]);
            assert_eq!(found, number, "{place:?}, {case:?}");
        }
    }
}

/// The three quantities at a place.
fn read(filter: &Filter, width: usize, pixels: &[u64], place: (usize, usize)) -> [Sample; 3] {
    let height = pixels.len() / width;
    [Quantity::Gray, Quantity::Sum, Quantity::Mean]
        .map(|quantity| accepted::sample(filter, width, height, pixels, place, quantity))
}

/// The largest sums, 255 times the weight, read white and 255 exactly.
#[test]
fn the_largest_sums() {
    for (rows, columns, weight) in [
        (&[][..], &[][..], 1),
        (&[2; 22], &[2; 22], 1 << 44),
        (&[2; 44], &[], 1 << 44),
        (&[3; 14], &[3; 13], 7_625_597_484_987),
        (&[255], &[255], 65_025),
        (&[255, 2], &[128, 129], 8_421_120),
    ] {
        let filter = filter(rows, columns);
        let [rx, ry] = [rows, columns].map(|list| reference::reach(&boxes(list)));
        let white = vec![255; (rx + 1) * (ry + 1)];
        let place = (rx.div_ceil(2), ry.div_ceil(2));
        let expected = [
            Sample::Gray {
                gray: 255,
                leftover: 0,
            },
            Sample::Sum(255 * weight),
            Sample::Mean(255.0),
        ];
        assert_eq!(read(&filter, rx + 1, &white, place), expected, "{filter:?}");
        let black = vec![0; white.len()];
        let found = read(&filter, rx + 1, &black, place);
        let none = Sample::Gray {
            gray: 0,
            leftover: 0,
        };
        let expected = [none, Sample::Sum(0), Sample::Mean(0.0)];
        assert_eq!(found, expected, "{filter:?}");
    }
}

/// The three quantities at a place of a line of pixels, all 0 but the first. A
/// list has to read the same along a row and down a column.
fn read_line(list: &[u8], side: usize, place: usize, first: u64) -> [Sample; 3] {
    let mut line = vec![0; side];
    line[0] = first;
    let along = read(&filter(list, &[]), side, &line, (place, 0));
    let down = read(&filter(&[], list), 1, &line, (0, place));
    assert_eq!(along, down, "{list:?}");
    along
}

/// The leftovers about a half, at an even weight and at an odd one: first where
/// the whole window is inside, then where the inside weight is 3, 2, 1, 4 and 5.
#[test]
fn leftovers_beside_the_grey() {
    for (list, side, place, pixel, gray, leftover) in [
        (&[4][..], 4, 2, 1, 0, 1),
        (&[4], 4, 2, 2, 1, -2),
        (&[4], 4, 2, 3, 1, -1),
        (&[4], 4, 2, 4, 1, 0),
        (&[3], 3, 1, 1, 0, 1),
        (&[3], 3, 1, 2, 1, -1),
        (&[5], 5, 2, 2, 0, 2),
        (&[5], 5, 2, 3, 1, -2),
        (&[255], 255, 127, 127, 0, 127),
        (&[255], 255, 127, 128, 1, -127),
        (&[4], 3, 1, 1, 0, 1),
        (&[4], 3, 1, 2, 1, -1),
        (&[4], 3, 0, 1, 1, -1),
        (&[255], 1, 0, 127, 127, 0),
        (&[255], 4, 0, 1, 0, 1),
        (&[255], 4, 3, 2, 1, -2),
        (&[16], 5, 0, 2, 0, 2),
        (&[16], 5, 4, 3, 1, -2),
    ] {
        let found = read_line(list, side, place, pixel)[0];
        let note = format_args!("{pixel}, place {place} of {side}, {list:?}");
        assert_eq!(found, Sample::Gray { gray, leftover }, "{note}");
    }
}

/// Quotients that no float holds: one division rounds them once, and the bits
/// are those of the nearest float. First the whole window is inside, then the
/// inside weight is 3, 5, 10, 7, 49, 2 and 1.
#[test]
fn quotients_are_divided_once() {
    for (list, side, place, pixel, bits) in [
        (&[3][..], 3, 1, 1, 0x3FD5_5555_5555_5555),
        (&[3], 3, 1, 2, 0x3FE5_5555_5555_5555),
        (&[5], 5, 2, 1, 0x3FC9_9999_9999_999A),
        (&[10], 10, 5, 1, 0x3FB9_9999_9999_999A),
        (&[7], 7, 3, 3, 0x3FDB_6DB6_DB6D_B6DB),
        // 49 times the nearest float to 1 / 49 is below 1.
        (&[49], 49, 24, 49, 0x3FF0_0000_0000_0000),
        (&[2, 2], 3, 1, 1, 0x3FD0_0000_0000_0000),
        (&[4], 3, 1, 1, 0x3FD5_5555_5555_5555),
        (&[3, 2], 3, 1, 1, 0x3FD9_9999_9999_999A),
        (&[16], 10, 3, 1, 0x3FB9_9999_9999_999A),
        (&[8], 7, 4, 3, 0x3FDB_6DB6_DB6D_B6DB),
        (&[255], 49, 7, 49, 0x3FF0_0000_0000_0000),
        (&[3], 2, 0, 1, 0x3FE0_0000_0000_0000),
        (&[2, 2], 1, 0, 1, 0x3FF0_0000_0000_0000),
    ] {
        let found = read_line(list, side, place, pixel)[2];
        let note = format_args!("{pixel}, place {place} of {side}, {list:?}");
        assert_eq!(found, Sample::Mean(f64::from_bits(bits)), "{note}");
    }
}

/// The readings at every place are what the blur has there.
#[test]
fn readings_are_those_of_the_blur() {
    let mut random = Random::new(3);
    for (rows, columns) in [(&[2, 3][..], &[2, 2][..]), (&[4], &[5, 2]), (&[9], &[])] {
        let filter = filter(rows, columns);
        let pixels = random.pixels(7 * 6);
        let (grays, leftovers) = accepted::blur(&filter, 7, 6, &pixels);
        for (k, (&gray, &leftover)) in grays.iter().zip(&leftovers).enumerate() {
            let found = read(&filter, 7, &pixels, (k % 7, k / 7))[0];
            let gray = gray as u8;
            let expected = Sample::Gray { gray, leftover };
            assert_eq!(found, expected, "place {k}, {filter:?}");
        }
    }
}

/// The corners of the largest picture, and the places just outside it.
#[test]
fn the_largest_sides() {
    let mut random = Random::new(4);
    let case = Case::fixed(&mut random, filter(&[4, 3], &[255]));
    let picture = Picture::random(&mut random, 1024, 1024, 1 << 20);
    for (place, number) in [
        ((0, 0), 0),
        ((1023, 0), 0),
        ((0, 1023), 0),
        ((1023, 1023), 0),
        ((1024, 0), 15),
        ((0, 1024), 15),
        ((1024, 1023), 15),
        ((1023, 1024), 15),
        ((1024, 1024), 15),
    ] {
        let found = sample(&case, &mut random, &picture, place);
        assert_eq!(found, number, "{place:?}");
    }
}
