//! The calls on a filter beside the reference, on random filters, valid and
//! damaged. The number of filters for each test is set in the environment:
//! `BORE_CASES=1000000 cargo test --release` makes a longer run. A failure
//! shows the seed; `BORE_SEED=123 BORE_CASES=1` repeats the case of seed 123.

mod common;

use common::{agree, count, each_case, list_of, Case};
use reference::random::Random;

/// A side of a picture: at a limit, far beyond it, or any accepted one.
fn any_side(random: &mut Random) -> usize {
    let accepted = random.between(1, 1024);
    let any = random.word() as usize;
    match random.between(0, 3) {
        0 => random.one_of(&[0, 1, 2, 1023, 1024, 1025]),
        1 => random.one_of(&[
            any,
            1 << 32,
            (1 << 32) + 7,
            1 << 63,
            usize::MAX - 254,
            usize::MAX,
        ]),
        _ => accepted,
    }
}

/// A length of an output that should hold `right` numbers.
fn any_length(random: &mut Random, right: usize) -> usize {
    let any = random.between(0, 300);
    match random.between(0, 7) {
        0 => right - 1,
        1 => right + 1,
        2 => random.one_of(&[0, 1, 256, 2 * right, 5000, any]),
        _ => right,
    }
}

#[test]
fn check_agrees() {
    each_case(|case, _| {
        agree::check(case);
    });
}

#[test]
fn kernel_agrees() {
    each_case(|case, random| {
        for cascades in case.axes() {
            let right = reference::reach(&list_of(cascades[0])) + 1;
            let length = any_length(random, right);
            agree::kernel(case, random, cascades, length);
        }
    });
}

#[test]
fn full_size_agrees() {
    each_case(|case, random| {
        for _ in 0..3 {
            let (width, height) = (any_side(random), any_side(random));
            agree::full_size(case, random, width, height);
        }
    });
}

#[test]
fn stream_cells_agrees() {
    each_case(|case, random| {
        for _ in 0..3 {
            let width = any_side(random);
            agree::stream_cells(case, random, width);
        }
    });
}

#[test]
fn moments_agrees() {
    each_case(|case, random| {
        agree::moments(case, random);
    });
}

/// How often the first cases meet each number, and each limit while accepted.
#[test]
fn random_cases_meet_every_limit() {
    let mut numbers = [0; 5];
    let mut limits = [0; 6];
    for seed in 0..4000 {
        let (case, _) = Case::random(seed);
        let recipe = case.recipe();
        let number = agree::check(&case);
        numbers[usize::from(number)] += 1;
        let weight = reference::weight(&recipe);
        let met = [
            number == 0 && weight == reference::MOST_WEIGHT,
            number == 0 && reference::reach(&recipe.rows) == 255,
            number == 0 && reference::reach(&recipe.columns) == 255,
            number == 0 && recipe.rows.len() == 48,
            number == 0 && recipe.columns.len() == 48,
            number == 4 && weight >= 1 << 64,
        ];
        count(&mut limits, met);
    }
    assert!(numbers.iter().all(|&count| count >= 200), "{numbers:?}");
    assert!(limits.iter().all(|&count| count >= 10), "{limits:?}");
}
