//! The calls of the crate sums_c for the one pass, on any state and any cells.
//! The unsafe blocks rest on what `calls_filter` says.

use crate::common::agree::number;
use crate::common::agree_stream::{state_of, without_sums};
use crate::common::cells::after_call;
use crate::common::{
    any_state, damage_state, filter, filter_of, list_of, narrow, recipe_of, refilled,
};
use crate::draw;
use crate::trial::Trial;
use bore::{raw, State};
use reference::random::Random;
use reference::{reach, Called, Stream};
use std::mem::swap;

fn words_of(state: &State) -> raw::Words {
    [state.width, state.height, state.emitted]
}

/// A start leaves a state in full, of zeros where it is refused.
pub fn start(trial: &mut Trial) -> u8 {
    let random = &mut trial.random;
    let block = draw::any_block(random);
    let recipe = recipe_of(&block);
    let (width, mut height) = draw::sides(random, &recipe, usize::MAX);
    if random.coin() {
        height = draw::any_side(random);
    }
    let needed = reference::needed_cells(&recipe, width).unwrap_or(random.between(0, 20));
    let cells_len = draw::cells(random, needed);
    let started = Stream::start(&recipe, width, height, cells_len);
    let expected = number(&started.result);
    let (left, words) = match expected {
        0 => (block, [width, height, 0]),
        _ => (filter(&[], &[]), [0; 3]),
    };
    let given = any_state(random);
    let block_given = trial.give(&[block]);
    let cells = trial.lend_any(cells_len, &vec![0; started.zeroed]);
    let state = trial.lend(&[given.filter], &[left]);
    let words = trial.lend(&[words_of(&given)], &[words]);
    let found =
        unsafe { raw::bore_start(&*block_given, width, height, cells, cells_len, state, words) };
    let note = format_args!("{block:?}, {width} by {height}, {cells_len} cells");
    trial.agree(found, expected, note)
}

/// What comes before a row call or a drain: the state, the work cells, and the
/// reference's stream, which knows the sums after an unbroken list of calls.
struct Before {
    state: State,
    cells: Vec<u64>,
    stream: Stream,
}

/// How many rows are out before a call: mostly so many that a row, or a drain,
/// is due.
fn rows_out(random: &mut Random, height: usize, all: usize, row: bool) -> usize {
    match (random.between(0, 15), row) {
        (0, _) => random.between(0, all),
        (_, true) => random.between(0, height - 1),
        (_, false) => random.between(height, all.max(height + 1) - 1),
    }
}

/// A state of an accepted recipe and sides, mostly not damaged, with any cells.
/// For a drain the columns mostly have a reach, so that there is something to
/// drain.
fn any_before(random: &mut Random, row: bool) -> Before {
    let most = draw::bound(random);
    let mut filter = draw::light_filter(random, most);
    if !row && reach(&list_of(&filter.columns)) == 0 {
        swap(&mut filter.rows, &mut filter.columns);
    }
    let recipe = recipe_of(&filter);
    let (width, height) = draw::sides(random, &recipe, most);
    let emitted = match reference::grown_sides(&recipe, width, height) {
        Ok((_, all)) => rows_out(random, height, all, row),
        Err(_) => random.between(0, 20),
    };
    let mut state = State {
        filter,
        width,
        height,
        emitted,
    };
    match random.between(0, 31) {
        0 => state = any_state(random),
        1..=5 => damage_state(random, &mut state),
        _ => (),
    }
    let small = random.between(0, 20);
    let needed = reference::needed_cells(&recipe_of(&state.filter), state.width);
    let length = draw::cells(random, needed.unwrap_or(small));
    let kind = random.between(0, 7);
    let any = |_| match kind {
        0 => random.one_of(&[0, 1, u64::MAX]),
        _ => random.word(),
    };
    Before {
        state,
        cells: (0..length).map(any).collect(),
        stream: without_sums(),
    }
}

/// The state and the cells of a start and some calls after it, by the model.
fn after_calls(random: &mut Random, row: bool) -> Before {
    let mut recipe = random.valid_recipe(6);
    if !row && reach(&recipe.columns) == 0 {
        swap(&mut recipe.rows, &mut recipe.columns);
    }
    let [width, height] = [(); 2].map(|_| random.between(1, 4));
    let needed = reference::needed_cells(&recipe, width).unwrap_or(0);
    let mut cells = vec![0; needed];
    cells.extend((0..random.between(0, 3)).map(|_| random.word()));
    let mut started = Stream::start(&recipe, width, height, cells.len());
    let all = height + reach(&recipe.columns);
    for _ in 0..rows_out(random, height, all, row) {
        let given = &started.state;
        let (stream, out) = (&mut started.stream, width + reach(&recipe.rows));
        let (pixels, called) = if given.yielded < height {
            let pixels = random.pixels(width);
            let called = stream.row(given, &pixels, out, cells.len());
            (pixels, called)
        } else {
            (vec![], stream.drain(given, out, cells.len()))
        };
        cells = after_call(given, &pixels, &cells).1;
        started.state = called.state;
    }
    let state = State {
        filter: refilled(random, &filter_of(&recipe)),
        width,
        height,
        emitted: started.state.yielded,
    };
    Before {
        state,
        cells,
        stream: started.stream,
    }
}

fn before(random: &mut Random, row: bool) -> Before {
    match random.between(0, 3) {
        0 => after_calls(random, row),
        _ => any_before(random, row),
    }
}

/// The output and the cells that a call leaves where they change. Where the
/// reference has sums, the model has to have the same.
fn left_by(before: &Before, pixels: &[u64], called: &Called) -> (Vec<u64>, Vec<u64>) {
    if called.result.is_err() {
        return (vec![], vec![]);
    }
    let (out, cells) = after_call(&state_of(&before.state), pixels, &before.cells);
    if let Some(sums) = &called.sums {
        assert_eq!(&out, sums, "the model's sums, {:?}", before.state);
    }
    (out, cells)
}

/// The pixels of a row, mostly as many as the state says.
fn row_pixels(random: &mut Random, state: &State) -> Vec<u64> {
    let length = draw::length(random, state.width);
    random.pixels(length)
}

/// A length of the output, mostly the one that the state says.
fn out_length(random: &mut Random, state: &State) -> usize {
    let right = state
        .width
        .wrapping_add(reach(&recipe_of(&state.filter).rows));
    draw::length(random, right)
}

/// A row call or a drain.
fn step(trial: &mut Trial, row: bool) -> u8 {
    let mut before = before(&mut trial.random, row);
    let state = before.state;
    let pixels = match row {
        true => row_pixels(&mut trial.random, &state),
        false => vec![],
    };
    let out_len = out_length(&mut trial.random, &state);
    let (p_len, cells_len) = (pixels.len(), before.cells.len());
    let given = state_of(&state);
    let called = match row {
        true => before.stream.row(&given, &pixels, out_len, cells_len),
        false => before.stream.drain(&given, out_len, cells_len),
    };
    let (out, cells) = left_by(&before, &pixels, &called);
    let words = [state.width, state.height, called.state.yielded];
    let block = trial.give(&[state.filter]);
    let words = trial.lend(&[words_of(&state)], &[words]);
    let p = row.then(|| trial.give(&narrow(&pixels)));
    let out = trial.lend_any(out_len, &out);
    let cells = trial.lend(&before.cells, &cells);
    let count = unsafe { &mut *trial.lend_any(1, &[called.count]) };
    let found = match p {
        Some(p) => unsafe {
            raw::bore_push(
                block, words, p, p_len, out, out_len, cells, cells_len, count,
            )
        },
        None => unsafe { raw::bore_drain(block, words, out, out_len, cells, cells_len, count) },
    };
    let note = format_args!("{state:?}, {pixels:?}, lengths {out_len}, {cells_len}");
    trial.agree(found, number(&called.result), note)
}

pub fn push(trial: &mut Trial) -> u8 {
    step(trial, true)
}

pub fn drain(trial: &mut Trial) -> u8 {
    step(trial, false)
}
