//! The calls of the crate filter_c.
//!
//! Every pointer comes from the trial: it is aligned, and as many values stand
//! there as the call is told, mapped for it alone until they are compared. That
//! is what each unsafe block rests on.

use crate::common::agree::number;
use crate::common::near_misses::near_misses;
use crate::common::pairs::{accepted_recipe, disguised, MAKERS};
use crate::common::{damage, filter_of, list_of, recipe_of, refilled};
use crate::draw::{any_block, any_side, length};
use crate::trial::Trial;
use crate::SAME;
use bore::{raw, Filter};
use reference::random::Random;
use reference::{boxes, Recipe};
use std::sync::LazyLock;

pub fn check(trial: &mut Trial) -> u8 {
    let filter = any_block(&mut trial.random);
    let expected = number(&reference::check(&recipe_of(&filter)));
    let block = trial.give(&[filter]);
    let found = raw::bore_check(unsafe { &*block });
    trial.agree(found, expected, format_args!("{filter:?}"))
}

pub fn kernel(trial: &mut Trial) -> u8 {
    let filter = any_block(&mut trial.random);
    let cascade = trial.random.one_of(&[filter.rows, filter.columns]);
    let list = list_of(&cascade);
    let out_len = length(&mut trial.random, reference::reach(&list) + 1);
    let expected = reference::coefficients(&list, out_len);
    let left = expected.as_deref().unwrap_or(&[]);
    let list = trial.give(&[cascade]);
    let out = trial.lend_any(out_len, left);
    let found = unsafe { raw::bore_kernel(&*list, out, out_len) };
    let note = format_args!("{cascade:?}, length {out_len}");
    trial.agree(found, number(&expected), note)
}

pub fn full_size(trial: &mut Trial) -> u8 {
    let filter = any_block(&mut trial.random);
    let [width, height] = [(); 2].map(|_| any_side(&mut trial.random));
    let expected = reference::grown_sides(&recipe_of(&filter), width, height);
    let left = expected.ok();
    let block = trial.give(&[filter]);
    let full_width = trial.lend_any(1, left.map(|sides| sides.0).as_slice());
    let full_height = trial.lend_any(1, left.map(|sides| sides.1).as_slice());
    let found =
        unsafe { raw::bore_full_size(&*block, width, height, &mut *full_width, &mut *full_height) };
    let note = format_args!("{width} by {height}, {filter:?}");
    trial.agree(found, number(&expected), note)
}

pub fn stream_cells(trial: &mut Trial) -> u8 {
    let filter = any_block(&mut trial.random);
    let width = any_side(&mut trial.random);
    let expected = reference::needed_cells(&recipe_of(&filter), width);
    let block = trial.give(&[filter]);
    let cells = trial.lend_any(1, expected.ok().as_slice());
    let found = unsafe { raw::bore_stream_cells(&*block, width, &mut *cells) };
    let note = format_args!("width {width}, {filter:?}");
    trial.agree(found, number(&expected), note)
}

pub fn moments(trial: &mut Trial) -> u8 {
    let filter = any_block(&mut trial.random);
    let expected = reference::scale_card(&recipe_of(&filter));
    let card = expected.ok();
    let block = trial.give(&[filter]);
    let weight = trial.lend_any(1, card.map(|card| card.weight).as_slice());
    let orders = [
        trial.lend_any(1, card.map(|card| card.row_reach).as_slice()),
        trial.lend_any(1, card.map(|card| card.column_reach).as_slice()),
    ];
    let variances = [
        trial.lend_any(1, card.map(|card| card.row_variance.to_bits()).as_slice()),
        trial.lend_any(
            1,
            card.map(|card| card.column_variance.to_bits()).as_slice(),
        ),
    ];
    let found = unsafe {
        raw::bore_moments(
            &*block,
            &mut *weight,
            &mut *orders[0],
            &mut *orders[1],
            &mut *variances[0].cast(),
            &mut *variances[1].cast(),
        )
    };
    trial.agree(found, number(&expected), format_args!("{filter:?}"))
}

/// Pairs of lists that agree in length, reach and weight.
static NEAR_MISSES: LazyLock<Vec<[Vec<u8>; 2]>> = LazyLock::new(near_misses);

/// A recipe with a relative, of which many are the same recipe.
fn relatives(random: &mut Random) -> [Recipe; 2] {
    let recipe = accepted_recipe(random);
    let maker = random.one_of(&MAKERS);
    let (other, _) = maker(random, &recipe);
    let other = disguised(random, &other);
    [recipe, other]
}

/// A near miss on one axis beside a list on the other.
fn near_miss(random: &mut Random) -> [Recipe; 2] {
    let [x, y] = &NEAR_MISSES[random.between(0, NEAR_MISSES.len() - 1)];
    let other = random.valid_recipe(12).rows;
    let on_rows = random.coin();
    [x, y].map(|list| {
        let (rows, columns) = match on_rows {
            true => (boxes(list), other.clone()),
            false => (other.clone(), boxes(list)),
        };
        Recipe { rows, columns }
    })
}

/// Two filters, mostly related.
fn any_two(random: &mut Random) -> [Filter; 2] {
    let mut pair = match random.between(0, 7) {
        0..=3 => relatives(random).map(|recipe| filter_of(&recipe)),
        4 => near_miss(random).map(|recipe| filter_of(&recipe)),
        5 => [(); 2].map(|_| any_block(random)),
        _ => [any_block(random); 2],
    };
    if random.between(0, 7) == 0 {
        damage(random, &mut pair[0]);
    }
    if random.between(0, 7) == 0 {
        damage(random, &mut pair[1]);
    }
    if random.coin() {
        pair.reverse();
    }
    pair.map(|filter| refilled(random, &filter))
}

/// The number, or SAME for two recipes that are the same.
pub fn equivalent(trial: &mut Trial) -> u8 {
    let [a, b] = any_two(&mut trial.random);
    let expected = reference::same(&recipe_of(&a), &recipe_of(&b));
    let block_a = trial.give(&[a]);
    let block_b = trial.give(&[b]);
    let same = trial.lend_any(1, expected.ok().map(u8::from).as_slice());
    let found = unsafe { raw::bore_equivalent(&*block_a, &*block_b, &mut *same) };
    let number = trial.agree(found, number(&expected), format_args!("{a:?}, {b:?}"));
    match expected {
        Ok(true) => SAME,
        _ => number,
    }
}
