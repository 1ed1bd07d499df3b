//! The calls of the crate gray_c: rounding, the same-size blur, the difference
//! and the readings. The unsafe blocks rest on what `calls_filter` says.

use crate::common::agree::number;
use crate::common::difference_pairs::any_pair;
use crate::common::pairs::disguised;
use crate::common::pictures::{any_place, products, Picture};
use crate::common::sums::{any_sums, weight};
use crate::common::{any_filter, filter_of, narrow, recipe_of, refilled};
use crate::draw;
use crate::trial::Trial;
use bore::{raw, Filter};
use reference::random::Random;
use reference::{Choice, Reading, Recipe, Rounded};

/// The greys and the leftovers that an accepted call leaves.
fn left_by(expected: &Result<Rounded, u8>) -> (Vec<u8>, &[i64]) {
    match expected {
        Ok(rounded) => (narrow(&rounded.greys), &rounded.leftovers),
        Err(_) => (Vec::new(), &[]),
    }
}

pub fn round(trial: &mut Trial) -> u8 {
    let filter = draw::any_block(&mut trial.random);
    let recipe = recipe_of(&filter);
    let sums = any_sums(&mut trial.random, weight(&recipe));
    let lengths = [(); 2].map(|_| draw::length(&mut trial.random, sums.len()));
    let expected = reference::round_row(&recipe, &sums, lengths);
    let (greys, leftovers) = left_by(&expected);
    let [out_len, rest_len] = lengths;
    let block = trial.give(&[filter]);
    let row = trial.give(&sums);
    let out = trial.lend_any(out_len, &greys);
    let rest = trial.lend_any(rest_len, leftovers);
    let found = unsafe { raw::bore_round(&*block, row, sums.len(), out, out_len, rest, rest_len) };
    let note = format_args!("{filter:?}, {sums:?}, lengths {lengths:?}");
    trial.agree(found, number(&expected), note)
}

pub fn blur(trial: &mut Trial) -> u8 {
    let (filter, recipe, picture) = draw::filter_and_picture(&mut trial.random);
    let Picture { width, height, .. } = picture;
    let needed = draw::grown_size(&recipe, &picture).wrapping_mul(2);
    let lengths = [(); 2].map(|_| draw::length(&mut trial.random, draw::size(&picture)));
    let cells_len = draw::cells(&mut trial.random, needed);
    let pixels = &picture.pixels;
    let expected = reference::same_size_blur(&recipe, width, height, pixels, lengths, cells_len);
    let (greys, leftovers) = left_by(&expected);
    let [out_len, rest_len] = lengths;
    let block = trial.give(&[filter]);
    let p = trial.give(&narrow(pixels));
    let out = trial.lend_any(out_len, &greys);
    let rest = trial.lend_any(rest_len, leftovers);
    let cells = trial.lend_free(cells_len, expected.as_ref().map_or(0, |_| needed));
    let p_len = pixels.len();
    let found = unsafe {
        raw::bore_blur(
            &*block, width, height, p, p_len, out, out_len, rest, rest_len, cells, cells_len,
        )
    };
    let note = format_args!("{filter:?}, {picture:?}, lengths {lengths:?}, {cells_len}");
    trial.agree(found, number(&expected), note)
}

/// Two recipes of which most can be subtracted: a recipe and itself in another
/// form, or two that are mostly alike in parity.
fn drawn_pair(random: &mut Random, most: usize) -> [Filter; 2] {
    match random.between(0, 15) {
        0 => return [(); 2].map(|_| any_filter(random)),
        1..=2 => {
            let recipe = recipe_of(&draw::light_filter(random, most));
            let other = disguised(random, &recipe);
            return [recipe, other].map(|recipe| filter_of(&recipe));
        }
        _ => (),
    }
    let long = |recipe: &Recipe| products(recipe, 1, 1) > most;
    let mut pair = any_pair(random);
    while pair.iter().any(long) && random.between(0, 1023) > 0 {
        pair = any_pair(random);
    }
    pair.map(|recipe| filter_of(&recipe))
}

/// The recipe for which the reference has more to do.
fn longer<'a>(a: &'a Recipe, b: &'a Recipe) -> &'a Recipe {
    match products(a, 1, 1) > products(b, 1, 1) {
        true => a,
        false => b,
    }
}

pub fn difference(trial: &mut Trial) -> u8 {
    let random = &mut trial.random;
    let most = draw::bound(random);
    let filters = drawn_pair(random, most).map(|filter| refilled(random, &filter));
    let [a, b] = &filters.map(|filter| recipe_of(&filter));
    let picture = draw::picture(random, longer(a, b), most);
    let Picture { width, height, .. } = picture;
    let needed = [a, b].map(|recipe| draw::grown_size(recipe, &picture));
    let needed = needed[0].wrapping_add(needed[1]).wrapping_mul(2);
    let out_len = draw::length(random, draw::size(&picture));
    let cells_len = draw::cells(random, needed);
    let pixels = &picture.pixels;
    let expected = reference::difference(a, b, width, height, pixels, out_len, cells_len);
    let left: Vec<i16> = narrow(expected.as_deref().unwrap_or(&[]));
    let blocks = filters.map(|filter| trial.give(&[filter]));
    let p = trial.give(&narrow(pixels));
    let out = trial.lend_any(out_len, &left);
    let cells = trial.lend_free(cells_len, expected.as_ref().map_or(0, |_| needed));
    let (a, b, p_len) = (blocks[0], blocks[1], pixels.len());
    let found = unsafe {
        raw::bore_difference(
            &*a, &*b, width, height, p, p_len, out, out_len, cells, cells_len,
        )
    };
    let note = format_args!("{filters:?}, {picture:?}, lengths {out_len}, {cells_len}");
    trial.agree(found, number(&expected), note)
}

/// The reading of one quantity.
fn sample(trial: &mut Trial, choice: Choice) -> u8 {
    let (filter, recipe, picture) = draw::filter_and_picture(&mut trial.random);
    let Picture { width, height, .. } = picture;
    let place = any_place(&mut trial.random, &picture);
    let expected = reference::reading(&recipe, width, height, &picture.pixels, place, choice);
    let (left, leftover) = match expected {
        Ok(Reading::Grey(grey, leftover)) => (Some(grey), Some(leftover)),
        Ok(Reading::Sum(sum)) => (Some(sum), None),
        Ok(Reading::Quotient(quotient)) => (Some(quotient.to_bits()), None),
        Err(_) => (None, None),
    };
    let block = trial.give(&[filter]);
    let (p, p_len) = (trial.give(&narrow(&picture.pixels)), picture.pixels.len());
    let (x, y) = place;
    let found = match choice {
        Choice::Grey => {
            let out = trial.lend_any(1, &narrow(left.as_slice()));
            let rest = trial.lend_any(1, leftover.as_slice());
            let (out, rest) = unsafe { (&mut *out, &mut *rest) };
            unsafe { raw::bore_sample_gray(&*block, width, height, p, p_len, x, y, out, rest) }
        }
        Choice::Sum => {
            let out = trial.lend_any(1, left.as_slice());
            unsafe { raw::bore_sample_sum(&*block, width, height, p, p_len, x, y, &mut *out) }
        }
        Choice::Quotient => {
            let out: *mut f64 = trial.lend_any(1, left.as_slice()).cast();
            unsafe { raw::bore_sample_mean(&*block, width, height, p, p_len, x, y, &mut *out) }
        }
    };
    let note = format_args!("{filter:?}, {picture:?}, {place:?}");
    trial.agree(found, number(&expected), note)
}

pub fn sample_gray(trial: &mut Trial) -> u8 {
    sample(trial, Choice::Grey)
}

pub fn sample_sum(trial: &mut Trial) -> u8 {
    sample(trial, Choice::Sum)
}

pub fn sample_mean(trial: &mut Trial) -> u8 {
    sample(trial, Choice::Quotient)
}
