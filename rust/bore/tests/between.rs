//! No mark out of nowhere: each grey of the same-size blur and of a reading lies
//! between the least and the greatest pixel, and raising any pixels lowers no
//! grey. Recipes with much rim, and pictures of few greys, so that the least and
//! the greatest are near what is left. BORE_CASES and BORE_SEED set the random
//! cases as they do for the calls on a filter.

mod common;

use bore::{Quantity, Sample};
use common::accepted::{blur, sample};
use common::pictures::{over_ends, some_places, Picture};
use common::rims::{long_case, places, small_case};
use common::{count, each_seed, Case};
use reference::random::Random;
use reference::LARGEST_GREY;

/// Pixels from a least to a greatest grey, not far apart, or of just these two;
/// one picture in eight keeps the pixels that it has.
fn dim(random: &mut Random, pixels: &mut [u64]) {
    let least = random.grey();
    let apart = random.one_of(&[1, 1, 2, 7, 40, LARGEST_GREY]);
    let greatest = (least + apart).min(LARGEST_GREY);
    let (kind, keep) = (random.between(0, 2), random.between(0, 7) == 0);
    for pixel in pixels.iter_mut().filter(|_| !keep) {
        let any = random.between(least as usize, greatest as usize) as u64;
        *pixel = match kind {
            0 => any,
            1 => random.one_of(&[least, greatest]),
            _ => random.one_of(&[least, least, least, least, least, least, greatest]),
        };
    }
}

/// A copy with one pixel raised, or some, or all, by little or by anything.
fn raised(random: &mut Random, pixels: &[u64]) -> Vec<u64> {
    let mut raised = pixels.to_vec();
    let one = random.between(0, pixels.len() - 1);
    let (kind, most) = (random.between(0, 2), random.one_of(&[1, 3, LARGEST_GREY]));
    for (k, pixel) in raised.iter_mut().enumerate() {
        let chosen = match kind {
            0 => k == one,
            1 => random.coin(),
            _ => true,
        };
        if chosen {
            let by = random.between(1, most as usize) as u64;
            *pixel = (*pixel + by).min(LARGEST_GREY);
        }
    }
    raised
}

/// The case of a seed with such a picture, and the picture with pixels raised;
/// one case in 64 has a side of up to 1,024.
fn between_case(seed: u64) -> (Case, Random, [Picture; 2]) {
    let (case, mut random, mut picture) = match seed % 64 {
        0 => long_case(seed),
        _ => small_case(seed),
    };
    dim(&mut random, &mut picture.pixels);
    let pixels = raised(&mut random, &picture.pixels);
    let higher = Picture { pixels, ..picture };
    (case, random, [picture, higher])
}

/// The least and the greatest of some numbers.
fn ends(numbers: &[u64]) -> [u64; 2] {
    let [least, greatest] = [numbers.iter().min(), numbers.iter().max()];
    [least, greatest].map(|end| *end.expect("there is a pixel"))
}

/// The grey of the reading at a place.
fn gray_at(case: &Case, picture: &Picture, place: (usize, usize)) -> u64 {
    let (width, height, pixels) = (picture.width, picture.height, &picture.pixels);
    match sample(&case.filter, width, height, pixels, place, Quantity::Gray) {
        Sample::Gray { gray, .. } => gray.into(),
        other => panic!("{other:?} in place of a grey"),
    }
}

/// The greys of the blur, each of them between the least and the greatest pixel.
fn greys(case: &Case, picture: &Picture) -> Vec<u64> {
    let (width, height, pixels) = (picture.width, picture.height, &picture.pixels);
    let greys = blur(&case.filter, width, height, pixels).0;
    let [least, greatest] = ends(pixels);
    let [lowest, highest] = ends(&greys);
    let note = format_args!("{width} by {height}, {case:?}");
    assert!(least <= lowest, "{lowest} below {least}, {note}");
    assert!(highest <= greatest, "{highest} above {greatest}, {note}");
    greys
}

/// Whether no entry is lower in the second.
fn none_lower(first: &[u64], second: &[u64]) -> bool {
    first.len() == second.len() && first.iter().zip(second).all(|(a, b)| a <= b)
}

/// 50,000 recipes, each on a picture and on that with pixels raised: the blur.
#[test]
fn blurs_make_no_new_mark() {
    each_seed(2, |seed| {
        let (case, _, [picture, higher]) = between_case(seed);
        let [before, after] = [&picture, &higher].map(|picture| greys(&case, picture));
        assert!(none_lower(&before, &after), "{picture:?}, {case:?}");
    });
}

/// 50,000 such cases: the reading, at a corner and at a place of which most are
/// at or near the rims.
#[test]
fn readings_make_no_new_mark() {
    each_seed(2, |seed| {
        let (case, mut random, pictures) = between_case(seed);
        let some = some_places(&mut random, &case.recipe(), &pictures[0]);
        for place in [random.one_of(&some[..4]), random.one_of(&some[4..])] {
            let greys = pictures.each_ref().map(|picture| {
                let gray = gray_at(&case, picture, place);
                let [least, greatest] = ends(&picture.pixels);
                assert!((least..=greatest).contains(&gray), "{gray}, {case:?}");
                gray
            });
            assert!(greys[0] <= greys[1], "{greys:?}, {place:?}, {case:?}");
        }
    });
}

/// What a case meets: a least pixel that is not black where a window goes over
/// an end, a greatest that is not white; greys that are the least pixel, the
/// greatest, and neither, of a picture that is not plain; one pixel raised,
/// several but not all, all; a grey that rises, and one that stays although
/// pixels were raised.
fn kinds(case: &Case, pictures: &[Picture; 2]) -> [bool; 10] {
    let [picture, higher] = pictures;
    let [least, greatest] = ends(&picture.pixels);
    let recipe = case.recipe();
    let rim = |place| {
        over_ends(&recipe, picture, place)
            .iter()
            .any(|over| over.contains(&true))
    };
    let [before, after] = [picture, higher].map(|picture| greys(case, picture));
    let pairs = picture.pixels.iter().zip(&higher.pixels);
    let more = pairs.filter(|(before, after)| before < after).count();
    let size = picture.pixels.len();
    let uneven = least < greatest;
    let greys = || before.iter().zip(&after);
    [
        least > 0 && places(picture).any(rim),
        greatest < LARGEST_GREY,
        uneven && before.contains(&least),
        uneven && before.contains(&greatest),
        before.iter().any(|&grey| least < grey && grey < greatest),
        more == 1 && size > 1,
        1 < more && more < size,
        more == size,
        greys().any(|(before, after)| before < after),
        more > 0 && greys().any(|(before, after)| before == after),
    ]
}

/// How many of the first cases are of each kind.
#[test]
fn random_cases_meet_every_kind() {
    let mut met = [0; 10];
    for seed in 0..300 {
        let (case, _, pictures) = between_case(seed);
        count(&mut met, kinds(&case, &pictures));
    }
    assert!(met.iter().all(|&n| n >= 10), "{met:?}");
}
