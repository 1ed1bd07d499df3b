//! The same-size blur and the readings where the window goes over the ends of the
//! picture, on random recipes with reaches about the sides and beyond: beside the
//! reference, and by the inside weight as the library's own sums of ones have it.
//! BORE_CASES and BORE_SEED set the random cases as they do for the calls on a
//! filter.

mod common;

use bore::{Quantity, Sample};
use common::accepted::{blur, sample};
use common::pictures::{over_ends, some_places, Picture};
use common::rims::{long_case, places, small_case};
use common::{agree_greys, count, each_seed, Case};
use reference::random::Random;
use reference::reach;

/// The blur of a case beside the reference, with buffers of the right lengths.
fn blur_agrees(case: &Case, random: &mut Random, picture: &Picture) {
    let (width, height) = (picture.width, picture.height);
    let needed = reference::same_size_cells(&case.recipe(), width, height);
    let size = width * height;
    let lengths = [size, size, needed.expect("the case is accepted")];
    let number = agree_greys::blur(case, random, picture, lengths);
    assert_eq!(number, 0, "{width} by {height}, {case:?}");
}

/// Blur and readings at every place.
#[test]
fn every_place_agrees() {
    each_seed(200, |seed| {
        let (case, mut random, picture) = small_case(seed);
        blur_agrees(&case, &mut random, &picture);
        for place in places(&picture) {
            let number = agree_greys::sample(&case, &mut random, &picture, place);
            assert_eq!(number, 0, "{place:?}, {case:?}");
        }
    });
}

/// Blurs at every place of many more pictures.
#[test]
fn blurs_agree() {
    each_seed(20, |seed| {
        let (case, mut random, picture) = small_case(seed);
        blur_agrees(&case, &mut random, &picture);
    });
}

/// One side up to 1,024: the blur at every place, the readings at some.
#[test]
fn long_sides_agree() {
    each_seed(1000, |seed| {
        let (case, mut random, picture) = long_case(seed);
        blur_agrees(&case, &mut random, &picture);
        for place in some_places(&mut random, &case.recipe(), &picture) {
            let number = agree_greys::sample(&case, &mut random, &picture, place);
            assert_eq!(number, 0, "{place:?}, {case:?}");
        }
    });
}

/// The reading of a quantity at a place of a case's picture.
fn read(case: &Case, picture: &Picture, place: (usize, usize), quantity: Quantity) -> Sample {
    let (width, height) = (picture.width, picture.height);
    sample(
        &case.filter,
        width,
        height,
        &picture.pixels,
        place,
        quantity,
    )
}

/// The exact sum at a place.
fn sum_at(case: &Case, picture: &Picture, place: (usize, usize)) -> u64 {
    match read(case, picture, place, Quantity::Sum) {
        Sample::Sum(sum) => sum,
        other => panic!("{other:?} in place of a sum"),
    }
}

/// A picture of the same sides whose pixels are all of one grey.
fn plain(picture: &Picture, grey: u64) -> Picture {
    Picture {
        pixels: vec![grey; picture.pixels.len()],
        ..*picture
    }
}

/// A picture of one grey keeps it up to the rim, with nothing left over.
fn stays_plain(case: &Case, picture: &Picture, some: &[(usize, usize)]) {
    let Picture {
        width,
        height,
        pixels,
    } = picture;
    let note = format_args!("{width} by {height} of {}, {case:?}", pixels[0]);
    let (greys, leftovers) = blur(&case.filter, *width, *height, pixels);
    assert!(greys == *pixels, "{note}");
    assert!(leftovers.iter().all(|&leftover| leftover == 0), "{note}");
    let (gray, leftover) = (pixels[0] as u8, 0);
    for &place in some {
        let found = [Quantity::Gray, Quantity::Mean].map(|of| read(case, picture, place, of));
        let expected = [Sample::Gray { gray, leftover }, Sample::Mean(gray.into())];
        assert_eq!(found, expected, "{place:?} of {note}");
    }
}

#[test]
fn plain_pictures_stay_plain() {
    each_seed(100, |seed| {
        let (case, mut random, picture) = match seed % 8 {
            0 => long_case(seed),
            _ => small_case(seed),
        };
        let some = some_places(&mut random, &case.recipe(), &picture);
        let any = random.grey();
        for grey in [0, 1, 100, 255, any] {
            stays_plain(&case, &plain(&picture, grey), &some);
        }
    });
}

/// At every place the blur has the grey and the leftover of the reading. They
/// make up the sum by the inside weight, the sum there for a picture of ones, and
/// the leftover is within half of it. The quotient is one division by it.
#[test]
fn blur_and_readings_go_by_the_inside_weight() {
    each_seed(100, |seed| {
        let (case, _, picture) = small_case(seed);
        let (width, height) = (picture.width, picture.height);
        let ones = plain(&picture, 1);
        let (greys, leftovers) = blur(&case.filter, width, height, &picture.pixels);
        for (k, place) in places(&picture).enumerate() {
            let note = format_args!("{place:?} of {width} by {height}, {case:?}");
            let (gray, leftover) = (greys[k] as u8, leftovers[k]);
            let found = read(&case, &picture, place, Quantity::Gray);
            assert_eq!(found, Sample::Gray { gray, leftover }, "{note}");
            let (sum, inside) = (sum_at(&case, &picture, place), sum_at(&case, &ones, place));
            let whole = (inside * greys[k]) as i64;
            assert_eq!(whole + leftover, sum as i64, "{note}");
            let half = inside as i64 / 2;
            let range = -half..=inside as i64 - 1 - half;
            assert!(range.contains(&leftover), "{leftover} of {inside}, {note}");
            let mean = read(&case, &picture, place, Quantity::Mean);
            assert_eq!(mean, Sample::Mean(sum as f64 / inside as f64), "{note}");
        }
    });
}

/// What a place with this inside weight meets: the window over the left end
/// alone, over the right, over both, and over none of a reach above 0; the same
/// from the top to the bottom; an inside weight with a single bit set where the
/// weight has not, and the other way round.
fn kinds_of_place(
    case: &Case,
    picture: &Picture,
    place: (usize, usize),
    inside: u64,
) -> [bool; 10] {
    let recipe = case.recipe();
    let [across, down] = over_ends(&recipe, picture, place);
    let weights = [inside.into(), reference::weight(&recipe)];
    let single = weights.map(u128::is_power_of_two);
    [
        across == [true, false],
        across == [false, true],
        across == [true, true],
        across == [false, false] && reach(&recipe.rows) > 0,
        down == [true, false],
        down == [false, true],
        down == [true, true],
        down == [false, false] && reach(&recipe.columns) > 0,
        single == [true, false],
        single == [false, true],
    ]
}

/// What a case is: a side no longer than the reach, an odd reach, an even one
/// above 0, each on both axes; one pixel.
fn kinds_of_case(case: &Case, picture: &Picture) -> [bool; 7] {
    let recipe = case.recipe();
    let [rx, ry] = [&recipe.rows, &recipe.columns].map(|list| reach(list));
    [
        picture.width <= rx,
        picture.height <= ry,
        rx % 2 == 1,
        ry % 2 == 1,
        rx > 0 && rx % 2 == 0,
        ry > 0 && ry % 2 == 0,
        picture.pixels.len() == 1,
    ]
}

/// How many of the first cases are of each kind, or have places of it.
#[test]
fn random_rims_meet_every_kind() {
    let mut cases = [0; 7];
    let mut met = [0; 10];
    for seed in 0..200 {
        let (case, _, picture) = small_case(seed);
        let inside = reference::inside_weights(&case.recipe(), picture.width, picture.height);
        let mut kinds = [0; 10];
        for (place, inside) in places(&picture).zip(inside) {
            count(&mut kinds, kinds_of_place(&case, &picture, place, inside));
        }
        count(&mut met, kinds.map(|places| places > 0));
        count(&mut cases, kinds_of_case(&case, &picture));
    }
    assert!(cases.iter().all(|&n| n >= 10), "{cases:?}");
    assert!(met.iter().all(|&n| n >= 10), "{met:?}");
}

/// How many of the first long cases have a width or a height above 1,000, and how
/// many of these have a reach along it, so that it has a rim and a middle.
#[test]
fn random_long_sides_meet_every_kind() {
    let mut met = [0; 4];
    for seed in 0..200 {
        let (case, _, picture) = long_case(seed);
        let recipe = case.recipe();
        let [rx, ry] = [&recipe.rows, &recipe.columns].map(|list| reach(list));
        let [wide, high] = [picture.width, picture.height].map(|side| side > 1000);
        count(&mut met, [wide, high, wide && rx > 0, high && ry > 0]);
    }
    assert!(met.iter().all(|&n| n >= 10), "{met:?}");
}
