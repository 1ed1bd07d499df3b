//! The fading ladder: its sums in numbers written out, and its refusals.

use reference::random::Random;
use reference::{
    check, exact_sums, from_below, grown_sides, ladder_recipe, weight, Axes, Grid, Recipe,
    MOST_LEVEL,
};

/// The widths of level 8; each level below has one fewer, level 1 three.
const WIDTHS: [u8; 10] = [2, 3, 4, 6, 8, 12, 16, 24, 32, 48];

/// The sum of (n - 1) over the widths of levels 1 to 8.
const REACHES: [usize; 8] = [6, 11, 18, 29, 44, 67, 98, 145];

/// The product of the widths of levels 1 to 8.
const WEIGHTS: [u64; 8] = [
    24,
    144,
    1_152,
    13_824,
    221_184,
    5_308_416,
    169_869_312,
    8_153_726_976,
];

/// The coefficients of 2, 3, 4: those of 2, 3 are 1 2 2 1.
const LEVEL_1: [u64; 7] = [1, 3, 5, 6, 5, 3, 1];

/// Each the sum of up to six neighbours of 1 3 5 6 5 3 1.
const LEVEL_2: [u64; 12] = [1, 4, 9, 15, 20, 23, 23, 20, 15, 9, 4, 1];

/// The levels that are accepted on these axes.
fn accepted(axes: Axes) -> std::ops::RangeInclusive<usize> {
    match axes {
        Axes::Rows => 1..=8,
        Axes::Both => 1..=5,
    }
}

/// The sums of an accepted level, with buffers of just the right lengths.
fn ladder(level: usize, axes: Axes, w: usize, h: usize, pixels: &[u64]) -> Vec<u64> {
    let reach = REACHES[level - 1];
    let size = match axes {
        Axes::Rows => (w + reach) * h,
        Axes::Both => (w + reach) * (h + reach),
    };
    reference::ladder(level, axes, w, h, pixels, size, size).unwrap()
}

#[test]
fn one_pixel_along_rows() {
    assert_eq!(ladder(1, Axes::Rows, 1, 1, &[1]), LEVEL_1);
    assert_eq!(ladder(2, Axes::Rows, 1, 1, &[1]), LEVEL_2);
    let level_3 = ladder(3, Axes::Rows, 1, 1, &[1]);
    assert_eq!(level_3[..9], [1, 5, 14, 29, 49, 72, 95, 115, 129]);
    assert_eq!(level_3[9..], [134, 129, 115, 95, 72, 49, 29, 14, 5, 1][..]);
}

#[test]
fn one_pixel_on_both_axes() {
    #[rustfmt::skip]
    let level_1 = [
        1,  3,  5,  6,  5,  3, 1,
        3,  9, 15, 18, 15,  9, 3,
        5, 15, 25, 30, 25, 15, 5,
        6, 18, 30, 36, 30, 18, 6,
        5, 15, 25, 30, 25, 15, 5,
        3,  9, 15, 18, 15,  9, 3,
        1,  3,  5,  6,  5,  3, 1,
    ];
    assert_eq!(ladder(1, Axes::Both, 1, 1, &[1]), level_1);
    let level_2 = ladder(2, Axes::Both, 1, 1, &[1]);
    for (row, c) in level_2.chunks(12).zip(LEVEL_2) {
        assert_eq!(row, LEVEL_2.map(|r| r * c));
    }
}

/// Rows are not columns, and a row ends before the next begins.
#[test]
fn four_pixels() {
    #[rustfmt::skip]
    let along_rows = [
        1,  5, 11, 16, 17, 13,  7, 2,
        3, 13, 27, 38, 39, 29, 15, 4,
    ];
    assert_eq!(ladder(1, Axes::Rows, 2, 2, &[1, 2, 3, 4]), along_rows);
    #[rustfmt::skip]
    let both = [
         1,   5,  11,  16,  17,  13,   7,  2,
         6,  28,  60,  86,  90,  68,  36, 10,
        14,  64, 136, 194, 202, 152,  80, 22,
        21,  95, 201, 286, 297, 223, 117, 32,
        23, 103, 217, 308, 319, 239, 125, 34,
        18,  80, 168, 238, 246, 184,  96, 26,
        10,  44,  92, 130, 134, 100,  52, 14,
         3,  13,  27,  38,  39,  29,  15,  4,
    ];
    assert_eq!(ladder(1, Axes::Both, 2, 2, &[1, 2, 3, 4]), both);
}

#[test]
fn recipes_of_the_levels() {
    for level in 1..=MOST_LEVEL {
        let (reach, light) = (REACHES[level - 1], u128::from(WEIGHTS[level - 1]));
        let list = &WIDTHS[..level + 2];
        let rows = ladder_recipe(level, Axes::Rows).unwrap();
        assert_eq!(rows, Recipe::new(list, &[]));
        assert_eq!(weight(&rows), light);
        assert_eq!(grown_sides(&rows, 5, 3), Ok((5 + reach, 3)));
        let both = ladder_recipe(level, Axes::Both).unwrap();
        assert_eq!(both, Recipe::new(list, list));
        assert_eq!(weight(&both), light * light);
        let heavy = level >= 6;
        assert_eq!(check(&both).err(), heavy.then_some(4));
    }
}

/// The sums of one pixel 1 add up to the weight.
#[test]
fn weights_of_the_levels() {
    for (level, weight) in (1..).zip(WEIGHTS) {
        let sums = ladder(level, Axes::Rows, 1, 1, &[1]);
        assert_eq!(sums.len(), REACHES[level - 1] + 1);
        assert_eq!(sums.iter().sum::<u64>(), weight);
    }
    for (level, weight) in accepted(Axes::Both).zip(WEIGHTS) {
        let sums = ladder(level, Axes::Both, 1, 1, &[1]);
        assert_eq!(sums.iter().sum::<u64>(), weight * weight);
    }
}

/// On a white picture that is wide enough the middle is 255 times the weight.
#[test]
fn middle_of_a_white_picture() {
    let sums = ladder(8, Axes::Rows, 146, 1, &[255; 146]);
    assert_eq!(sums[145], 255 * 8_153_726_976);
    let sums = ladder(5, Axes::Both, 45, 45, &[255; 45 * 45]);
    assert_eq!(sums[44 * 89 + 44], 255 * 48_922_361_856);
}

#[test]
fn ladder_agrees_with_the_definition() {
    let mut random = Random::new(1);
    for _ in 0..20 {
        let (w, h) = (random.between(1, 7), random.between(1, 7));
        let pixels = random.pixels(w * h);
        for axes in [Axes::Rows, Axes::Both] {
            for level in accepted(axes) {
                let recipe = ladder_recipe(level, axes).unwrap();
                let expected = exact_sums(&recipe, w, h, &pixels).unwrap();
                assert_eq!(ladder(level, axes, w, h, &pixels), expected);
            }
        }
    }
}

/// A level from the one below, which grows by its one new width.
#[test]
fn one_level_from_another() {
    let below = Grid {
        width: 7,
        height: 1,
        values: LEVEL_1.to_vec(),
    };
    let along_rows = from_below(2, Axes::Rows, &below);
    assert_eq!((along_rows.width, along_rows.height), (12, 1));
    assert_eq!(along_rows.values, LEVEL_2);
    let both = from_below(2, Axes::Both, &below);
    assert_eq!((both.width, both.height), (12, 6));
    assert_eq!(both.values, LEVEL_2.repeat(6));
}

/// Whatever else is wrong.
#[test]
fn levels_outside_1_to_8_get_16() {
    let too_large = [9, 10, 255, 256, 257, 264, 65_537, (1 << 32) + 1, usize::MAX];
    for level in too_large.into_iter().chain([0]) {
        for axes in [Axes::Rows, Axes::Both] {
            let call = |w, h, pixels: &[u64], out, cells| {
                reference::ladder(level, axes, w, h, pixels, out, cells)
            };
            assert_eq!(call(1, 1, &[1], 7, 7), Err(16), "level {level}");
            assert_eq!(call(1, 1, &[1], 49, 49), Err(16), "level {level}");
            assert_eq!(call(0, 1025, &[1], 0, 0), Err(16), "level {level}");
            assert_eq!(call(1, 1, &[], 0, 0), Err(16), "level {level}");
        }
    }
}

#[test]
fn heavy_levels_get_4() {
    for level in 6..=8 {
        let reach = REACHES[level - 1];
        let size = (1 + reach) * (1 + reach);
        let call = |w, h, pixels: &[u64], out, cells| {
            reference::ladder(level, Axes::Both, w, h, pixels, out, cells)
        };
        assert_eq!(call(1, 1, &[1], size, size), Err(4), "level {level}");
        assert_eq!(call(0, 0, &[], 0, 0), Err(4), "level {level}");
        assert_eq!(call(1, 1, &[], 0, 0), Err(4), "level {level}");
    }
}

/// All later faults at once, mended one after the other.
#[test]
fn later_refusals_come_as_with_pass_by_pass() {
    for axes in [Axes::Rows, Axes::Both] {
        for level in accepted(axes) {
            let reach = REACHES[level - 1];
            let size = match axes {
                Axes::Rows => (2 + reach) * 3,
                Axes::Both => (2 + reach) * (3 + reach),
            };
            let call = |w, h, pixels: usize, out, cells| {
                reference::ladder(level, axes, w, h, &vec![9; pixels], out, cells).err()
            };
            for (w, h) in [(0, 3), (2, 0), (1025, 3), (2, 1025), (usize::MAX, 2)] {
                assert_eq!(call(w, h, 5, 0, 0), Some(5), "{w} by {h}");
            }
            for pixels in [0, 5, 7] {
                assert_eq!(call(2, 3, pixels, 0, 0), Some(6), "{pixels} pixels");
            }
            for out in [0, 6, size - 1, size + 1] {
                assert_eq!(call(2, 3, 6, out, 0), Some(7), "output of {out}");
            }
            for cells in [0, size - 1] {
                assert_eq!(call(2, 3, 6, size, cells), Some(8), "{cells} cells");
            }
            assert_eq!(call(2, 3, 6, size, size), None);
            assert_eq!(call(2, 3, 6, size, size + 1), None);
        }
    }
}
