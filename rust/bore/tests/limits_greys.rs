//! Rounding and the same-size blur at each limit of document 01, rounding by the
//! weight and the blur by the inside weight of document 02: every number and
//! every grey stands here as the papers give it, and nearly every call is
//! compared with the reference too.

mod common;

use bore::Filter;
use common::accepted;
use common::agree_greys::{blur, round};
use common::causes::{first, from_bits, with_refusals};
use common::pictures::{Picture, REFUSED};
use common::{filter, on_axis, Case, BELOW};
use reference::boxes;
use reference::random::Random;

/// Rows 2,3 and columns 2,2. On a picture 5 by 3 the grown picture has 40 sums,
/// so the blur needs 80 cells. The weight is 24.
fn both() -> Filter {
    filter(&[2, 3], &[2, 2])
}

/// Recipes and their weights: with a single bit set, odd, other even ones, and
/// at the limit.
const WEIGHTS: [(&[u8], &[u8], u64); 15] = [
    (&[], &[], 1),
    (&[1; 48], &[1; 48], 1),
    (&[2], &[], 2),
    (&[3], &[], 3),
    (&[2], &[2], 4),
    (&[], &[5], 5),
    (&[2, 3], &[2, 2], 24),
    (&[7], &[9], 63),
    (&[255], &[], 255),
    (&[16], &[16], 256),
    (&[255], &[255], 65_025),
    (&[3; 14], &[3; 13], 7_625_597_484_987),
    (&[2; 43], &[], 1 << 43),
    (&BELOW, &[], (1 << 44) - 306_016),
    (&[2; 22], &[2; 22], 1 << 44),
];

/// The lengths of both outputs: the right one, or a wrong one for the first, for
/// the second or for both.
fn out_lengths<const N: usize>(
    random: &mut Random,
    output: bool,
    wrong: [usize; N],
    right: usize,
) -> [usize; 2] {
    let [first, second] = [(); 2].map(|_| random.one_of(&wrong));
    match output {
        true => random.one_of(&[[first, right], [right, second], [first, second]]),
        false => [right; 2],
    }
}

#[test]
fn rounding_refuses_in_order() {
    let mut random = Random::new(1);
    let case = Case::fixed(&mut random, both());
    let most = 255 * 24;
    for (sums, out, number) in [
        (&[][..], 0, 0),
        (&[], 1, 7),
        (&[0], 0, 7),
        (&[0], 1, 0),
        (&[0], 2, 7),
        (&[0, most, 12], 3, 0),
        (&[0, most, 12], 2, 7),
        (&[0, most, 12], 4, 7),
        (&[most + 1], 1, 11),
        (&[most + 1], 0, 7),
        (&[most + 1], 2, 7),
        (&[most + 1, 0, 0], 3, 11),
        (&[0, most + 1, 0], 3, 11),
        (&[0, 0, most + 1], 3, 11),
        (&[0, 0, u64::MAX], 3, 11),
        (&[u64::MAX; 3], 3, 11),
        (&[u64::MAX; 3], 4, 7),
    ] {
        let right = sums.len();
        for lengths in [[out, out], [out, right], [right, out]] {
            let found = round(&case, &mut random, sums, lengths);
            assert_eq!(found, number, "{sums:?} to lengths {lengths:?}");
        }
    }
}

/// Every choice of causes, those of the recipe on either axis.
#[test]
fn the_lowest_refusal_of_rounding_wins() {
    let mut random = Random::new(2);
    for bits in 0..64 {
        let wished: [bool; 6] = from_bits(bits);
        let [_, _, _, _, output, bright] = wished;
        let causes = std::array::from_fn(|i| wished[i]);
        for on_rows in 0..16 {
            let filter = with_refusals(&mut random, causes, from_bits(on_rows));
            let case = Case::fixed(&mut random, filter);
            // All widths of an accepted filter are 1 here.
            let sums = [7, if bright { 256 } else { 255 }];
            let lengths = out_lengths(&mut random, output, [0, 1, 3], 2);
            let found = round(&case, &mut random, &sums, lengths);
            assert_eq!(found, first(wished, [1, 2, 3, 4, 7, 11]), "{case:?}");
        }
    }
}

/// The sums about every half: weight / 2 is half a weight where the weight is
/// even, and then rounds upwards; where it is odd, it is below the half. The
/// leftovers about it are the largest and the least.
#[test]
fn rounding_turns_at_the_half() {
    let mut random = Random::new(3);
    for (rows, columns, weight) in WEIGHTS {
        if weight == 1 {
            continue;
        }
        let filter = filter(rows, columns);
        let case = Case::fixed(&mut random, filter);
        for k in 0..=254 {
            let half = k * weight + weight / 2;
            let sums = [half - 1, half, half + 1];
            let at_half = if weight % 2 == 0 { k + 1 } else { k };
            let (grays, leftovers) = accepted::round(&filter, &sums);
            assert_eq!(grays, [k, at_half, k + 1], "{sums:?}, weight {weight}");
            let down = weight as i64 / 2;
            let expected = match weight % 2 {
                0 => [down - 1, -down, 1 - down],
                _ => [down - 1, down, -down],
            };
            assert_eq!(leftovers, expected, "{sums:?}, weight {weight}");
            assert_eq!(round(&case, &mut random, &sums, [3; 2]), 0);
        }
    }
}

/// Every sum that is accepted at the weights 1 to 64, and those of two greys at
/// the weights up to 255: the leftovers run from 0 up to the weight less 1 and
/// less half the weight, then from minus half the weight up to -1, both halves
/// downwards, and are 0 again at each whole grey.
#[test]
fn leftovers_run_from_half_to_half() {
    let mut random = Random::new(9);
    for width in 1..=255 {
        let filter = filter(&[width], &[]);
        let case = Case::fixed(&mut random, filter);
        let weight = i64::from(width);
        let grays = if width <= 64 { 255 } else { 2 };
        let sums: Vec<u64> = (0..=grays * u64::from(width)).collect();
        let once: Vec<i64> = (0..=weight - 1 - weight / 2)
            .chain(-(weight / 2)..0)
            .collect();
        assert_eq!(once.len(), usize::from(width));
        let (_, leftovers) = accepted::round(&filter, &sums);
        let again = once.iter().copied().cycle();
        assert!(again.take(sums.len()).eq(leftovers), "weight {width}");
        assert_eq!(round(&case, &mut random, &sums, [sums.len(); 2]), 0);
    }
}

/// A sum is the weight times its grey and the leftover, which is at most half
/// the weight in size, at every weight.
#[test]
fn greys_and_leftovers_make_the_sum() {
    let mut random = Random::new(10);
    for (rows, columns, weight) in WEIGHTS {
        let filter = filter(rows, columns);
        let sums: Vec<u64> = (0..5000)
            .map(|_| random.word() % (255 * weight + 1))
            .collect();
        let (grays, leftovers) = accepted::round(&filter, &sums);
        let half = weight as i64 / 2;
        for ((&sum, &gray), &leftover) in sums.iter().zip(&grays).zip(&leftovers) {
            let whole = (weight * gray) as i64;
            assert_eq!(whole + leftover, sum as i64, "weight {weight}");
            let range = -half..=weight as i64 - 1 - half;
            assert!(range.contains(&leftover), "{leftover}, weight {weight}");
        }
    }
}

/// Every whole grey, the largest sum and what is above it.
#[test]
fn rounding_takes_sums_up_to_white() {
    let mut random = Random::new(4);
    for (rows, columns, weight) in WEIGHTS {
        let filter = filter(rows, columns);
        let case = Case::fixed(&mut random, filter);
        assert_eq!(accepted::moments(&filter).gain, weight, "{filter:?}");
        let whole: Vec<u64> = (0..=255).map(|k| k * weight).collect();
        let every: Vec<u64> = (0..=255).collect();
        let (grays, leftovers) = accepted::round(&filter, &whole);
        assert_eq!(grays, every, "weight {weight}");
        assert_eq!(leftovers, [0; 256], "weight {weight}");
        let most = 255 * weight;
        for bright in [most + 1, 256 * weight, 1 << 52, 1 << 63, u64::MAX] {
            for place in [0, 100, 255] {
                let mut sums = whole.clone();
                sums[place] = bright;
                assert_eq!(round(&case, &mut random, &sums, [256; 2]), 11, "{bright}");
            }
        }
    }
}

/// Rows of any length, with outputs of the same length, one less and one more.
#[test]
fn rounding_takes_any_length() {
    let mut random = Random::new(5);
    for (rows, columns) in [(&[2, 2][..], &[4][..]), (&[3], &[5])] {
        let case = Case::fixed(&mut random, filter(rows, columns));
        for length in (1..=70).chain([255, 256, 1279, 1280, 4096, 65_537, 1 << 20]) {
            let sums: Vec<u64> = (0..length).map(|_| random.word() % (255 * 15)).collect();
            for lengths in [
                [length, length],
                [length - 1, length],
                [length + 1, length],
                [length, length - 1],
                [length, length + 1],
                [length - 1, length + 1],
            ] {
                let found = round(&case, &mut random, &sums, lengths);
                let number = if lengths == [length; 2] { 0 } else { 7 };
                assert_eq!(found, number, "{length} sums, lengths {lengths:?}");
            }
        }
    }
}

#[test]
fn blur_refuses_in_order() {
    let mut random = Random::new(6);
    let case = Case::fixed(&mut random, both());
    for ([pixels, out, cells], number) in [
        ([15, 15, 80], 0),
        ([15, 15, 81], 0),
        ([15, 15, 1000], 0),
        ([15, 15, 79], 8),
        ([15, 15, 40], 8),
        ([15, 15, 20], 8),
        ([15, 15, 0], 8),
        ([15, 14, 80], 7),
        ([15, 16, 80], 7),
        ([15, 40, 80], 7),
        ([15, 14, 79], 7),
        ([15, 0, 0], 7),
        ([14, 15, 80], 6),
        ([16, 15, 80], 6),
        ([40, 15, 80], 6),
        ([0, 0, 0], 6),
    ] {
        let picture = Picture::random(&mut random, 5, 3, pixels);
        for [grays, leftovers] in [[out, out], [out, 15], [15, out]] {
            let found = blur(&case, &mut random, &picture, [grays, leftovers, cells]);
            let note = format_args!("{pixels} pixels, lengths {grays}, {leftovers}, {cells}");
            assert_eq!(found, number, "{note}");
        }
    }
    for (width, height) in REFUSED {
        for lengths in [[15, 15, 80], [0, 0, 0]] {
            for pixels in [0, 1, 15] {
                let picture = Picture::random(&mut random, width, height, pixels);
                let found = blur(&case, &mut random, &picture, lengths);
                assert_eq!(found, 5, "{width} by {height}");
            }
        }
    }
}

/// Every choice of causes, those of the recipe on either axis.
#[test]
fn the_lowest_refusal_of_the_blur_wins() {
    let mut random = Random::new(7);
    for bits in 0..256 {
        let wished: [bool; 8] = from_bits(bits);
        let [_, _, _, _, side, pixels, output, few] = wished;
        let causes = std::array::from_fn(|i| wished[i]);
        for on_rows in 0..16 {
            let filter = with_refusals(&mut random, causes, from_bits(on_rows));
            let case = Case::fixed(&mut random, filter);
            // All widths of an accepted filter are 1 here, so nothing grows.
            let width = if side { random.one_of(&[0, 1025]) } else { 4 };
            let picture = Picture::random(&mut random, width, 1, if pixels { 3 } else { 4 });
            let [grays, leftovers] = out_lengths(&mut random, output, [3, 5], 4);
            let cells = if few { random.between(0, 7) } else { 8 };
            let found = blur(&case, &mut random, &picture, [grays, leftovers, cells]);
            let number = first(wished, [1, 2, 3, 4, 5, 6, 7, 8]);
            assert_eq!(found, number, "{case:?}");
        }
    }
}

/// Recipes that need many cells for each place of the grown picture, on the
/// smallest pictures, with just enough cells and with one too few.
#[test]
fn just_enough_cells() {
    let mut random = Random::new(8);
    for (rows, columns) in [
        (&[3; 27][..], &[][..]),
        (&[], &[3; 27]),
        (&[3; 14], &[3; 13]),
        (&[2; 44], &[]),
        (&[], &[2; 44]),
        (&[2; 22], &[2; 22]),
        (&[4; 22], &[]),
        (&[255, 2], &[]),
        (&[], &[255, 2]),
        (&[255], &[]),
        (&[3, 3], &[255]),
        (&[], &[]),
    ] {
        let case = Case::fixed(&mut random, filter(rows, columns));
        let [rx, ry] = [rows, columns].map(|list| reference::reach(&boxes(list)));
        for (width, height) in [(1, 1), (1, 2), (2, 1), (3, 5)] {
            let size = width * height;
            let needed = 2 * (width + rx) * (height + ry);
            let picture = Picture::random(&mut random, width, height, size);
            for (cells, number) in [(needed, 0), (needed + 1, 0), (needed - 1, 8)] {
                let found = blur(&case, &mut random, &picture, [size, size, cells]);
                assert_eq!(
                    found, number,
                    "{cells} cells, {width} by {height}, {case:?}"
                );
            }
        }
    }
}

/// One pixel of 200 in a line of black ones: rx / 2 and ry / 2 are halved
/// downwards. The inside weights of the last five lists are 2 3 4 4 3, 3 5 6 6 5,
/// 3 4 5 4 3, 3 4 5 5 4 and 16 26 31 31 26.
#[test]
fn where_one_pixel_goes() {
    for (list, grays, leftovers) in [
        (&[][..], [0, 0, 200, 0, 0], [0; 5]),
        (&[2], [0, 0, 100, 100, 0], [0; 5]),
        (&[3], [0, 67, 67, 67, 0], [0, -1, -1, -1, 0]),
        (&[2, 2], [0, 50, 100, 50, 0], [0; 5]),
        (&[4], [0, 67, 50, 50, 67], [0, -1, 0, 0, -1]),
        (&[3, 2], [0, 40, 67, 67, 40], [0, 0, -2, -2, 0]),
        (&[5], [67, 50, 40, 50, 67], [-1, 0, 0, 0, -1]),
        (&[6], [67, 50, 40, 40, 50], [-1, 0, 0, 0, 0]),
        (&[2; 5], [13, 38, 65, 65, 38], [-8, 12, -15, -15, 12]),
    ] {
        let line = [0, 0, 200, 0, 0];
        let expected = (grays.to_vec(), leftovers.to_vec());
        let along = accepted::blur(&filter(list, &[]), 5, 1, &line);
        let down = accepted::blur(&filter(&[], list), 1, 5, &line);
        assert_eq!([&along, &down], [&expected; 2], "{list:?}");
    }
}

/// A width of 4 on a line of three pixels, of which the first is any and the
/// others are black. Two, three and three of the coefficients fall inside, and
/// every sum is the first pixel: the blur rounds it by 2, 3 and 3, the rounding
/// call by 4, and so does the difference to a width of 2.
#[test]
fn the_inside_weight_is_for_places_alone() {
    for on_rows in [true, false] {
        let (width, height) = if on_rows { (3, 1) } else { (1, 3) };
        let [four, two] = [4, 2].map(|n| on_axis(&[n], on_rows));
        for first in 0..=255u64 {
            let line = [first, 0, 0];
            let k = first as usize;
            let third = [0, 1, -1][k % 3];
            let grays = vec![first.div_ceil(2), (first + 1) / 3, (first + 1) / 3];
            let found = accepted::blur(&four, width, height, &line);
            assert_eq!(found, (grays, vec![[0, -1][k % 2], third, third]));
            let quarter = (first + 2) / 4;
            let found = accepted::round(&four, &[first; 3]);
            assert_eq!(found, (vec![quarter; 3], vec![[0, 1, -2, -1][k % 4]; 3]));
            // The sums by 2 are the first pixel twice, and then 0.
            let quarter = quarter as i64;
            let found = accepted::difference([&four, &two], width, height, &line);
            assert_eq!(found, [-quarter, -quarter, quarter]);
        }
    }
}

/// White and black pictures stay so up to the rim, whatever the weight, on sides
/// shorter than the window, just as long, and longer.
#[test]
fn white_and_black_pictures() {
    for (rows, columns, _) in WEIGHTS {
        let filter = filter(rows, columns);
        let [rx, ry] = [rows, columns].map(|list| reference::reach(&boxes(list)));
        for (width, height) in [(rx + 3, ry + 3), (rx + 1, ry + 1), (1 + rx / 3, 1 + ry / 3)] {
            let size = width * height;
            for pixel in [0, 255] {
                let plain = vec![pixel; size];
                let found = accepted::blur(&filter, width, height, &plain);
                let note = format_args!("{width} by {height} of {pixel}, {filter:?}");
                assert_eq!(found, (plain, vec![0; size]), "{note}");
            }
        }
    }
}
