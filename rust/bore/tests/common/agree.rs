//! One function for each call on a filter or on two: it makes the call for a
//! case's filter and for the twin, compares the number and all that was lent
//! with the reference, and returns the number; `equivalent` returns the answer
//! or the number.
//!
//! What is lent holds random bits before the call and stands in the middle of
//! other random bits. The whole is compared, so a refused call has to leave
//! everything as it was, and an accepted one all that was not lent to it.

use super::{list_of, Case};
use bore::{Cascade, Moments};
use reference::random::Random;

/// The library's form of a result: its number, 0 where it is accepted.
pub fn number<T>(result: &Result<T, u8>) -> u8 {
    result.as_ref().err().copied().unwrap_or(0)
}

pub fn check(case: &Case) -> u8 {
    let expected = number(&reference::check(&case.recipe()));
    for filter in case.both() {
        assert_eq!(bore::check(filter), expected, "check, {case:?}");
    }
    expected
}

/// The call for one axis of the case, with an output of this length.
pub fn kernel(
    case: &Case,
    random: &mut Random,
    [cascade, twin]: [&Cascade; 2],
    length: usize,
) -> u8 {
    let expected = reference::coefficients(&list_of(cascade), length);
    let (before, after) = (random.between(0, 3), random.between(0, 3));
    let lent = before..before + length;
    let words: Vec<u64> = (0..lent.end + after).map(|_| random.word()).collect();
    let mut expected_words = words.clone();
    if let Ok(kernel) = &expected {
        expected_words[lent.clone()].copy_from_slice(kernel);
    }
    for cascade in [cascade, twin] {
        let mut found = words.clone();
        let refusal = bore::kernel(cascade, &mut found[lent.clone()]);
        let note = format_args!("kernel of {cascade:?} to length {length}, {case:?}");
        assert_eq!(refusal, number(&expected), "{note}");
        assert_eq!(found, expected_words, "{note}");
    }
    number(&expected)
}

pub fn full_size(case: &Case, random: &mut Random, width: usize, height: usize) -> u8 {
    let expected = reference::grown_sides(&case.recipe(), width, height);
    let words = [(); 5].map(|_| random.word() as usize);
    let mut expected_words = words;
    if let Ok((full_width, full_height)) = expected {
        expected_words[1] = full_width;
        expected_words[3] = full_height;
    }
    for filter in case.both() {
        let mut found = words;
        let [_, full_width, _, full_height, _] = &mut found;
        let refusal = bore::full_size(filter, width, height, full_width, full_height);
        let note = format_args!("full size of {width} by {height}, {case:?}");
        assert_eq!(refusal, number(&expected), "{note}");
        assert_eq!(found, expected_words, "{note}");
    }
    number(&expected)
}

pub fn stream_cells(case: &Case, random: &mut Random, width: usize) -> u8 {
    let expected = reference::needed_cells(&case.recipe(), width);
    let words = [(); 3].map(|_| random.word() as usize);
    let mut expected_words = words;
    if let Ok(cells) = expected {
        expected_words[1] = cells;
    }
    for filter in case.both() {
        let mut found = words;
        let refusal = bore::stream_cells(filter, width, &mut found[1]);
        let note = format_args!("stream cells for width {width}, {case:?}");
        assert_eq!(refusal, number(&expected), "{note}");
        assert_eq!(found, expected_words, "{note}");
    }
    number(&expected)
}

fn random_moments(random: &mut Random) -> Moments {
    Moments {
        gain: random.word(),
        row_order: random.word() as usize,
        column_order: random.word() as usize,
        row_variance: f64::from_bits(random.word()),
        column_variance: f64::from_bits(random.word()),
    }
}

/// All fields as numbers, so that floats are compared by their bits.
fn bits(moments: Moments) -> [u64; 5] {
    [
        moments.gain,
        moments.row_order as u64,
        moments.column_order as u64,
        moments.row_variance.to_bits(),
        moments.column_variance.to_bits(),
    ]
}

pub fn moments(case: &Case, random: &mut Random) -> u8 {
    let expected = reference::scale_card(&case.recipe());
    let lent = [(); 3].map(|_| random_moments(random));
    let mut expected_moments = lent;
    if let Ok(card) = &expected {
        expected_moments[1] = Moments {
            gain: card.weight,
            row_order: card.row_reach,
            column_order: card.column_reach,
            row_variance: card.row_variance,
            column_variance: card.column_variance,
        };
    }
    for filter in case.both() {
        let mut found = lent;
        let refusal = bore::moments(filter, &mut found[1]);
        let note = format_args!("moments, {case:?}");
        assert_eq!(refusal, number(&expected), "{note}");
        assert_eq!(found.map(bits), expected_moments.map(bits), "{note}");
    }
    number(&expected)
}

/// What the comparing call says: the answer, or the number.
pub type Answer = Result<bool, u8>;

/// The call for two cases: either filter of the one beside either of the other.
/// The lent byte is no answer before the call.
pub fn equivalent(a: &Case, b: &Case, random: &mut Random) -> Answer {
    let expected = reference::same(&a.recipe(), &b.recipe());
    let bytes = [(); 3].map(|_| random.between(2, 255) as u8);
    let mut expected_bytes = bytes;
    if let Ok(same) = expected {
        expected_bytes[1] = u8::from(same);
    }
    for one in a.both() {
        for other in b.both() {
            let mut found = bytes;
            let refusal = bore::equivalent(one, other, &mut found[1]);
            let note = format_args!("equivalent, {a:?}, {b:?}");
            assert_eq!(refusal, number(&expected), "{note}");
            assert_eq!(found, expected_bytes, "{note}");
        }
    }
    expected
}
