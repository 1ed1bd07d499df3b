//! The one pass beside the reference and the model of the cells: starts, whole
//! lists of row calls and drains with refused ones among them, damaged states
//! and altered cells. BORE_CASES and BORE_SEED set the random cases as they do
//! for the calls on a filter.

mod common;

use bore::State;
use common::agree_stream::{start, state_of, without_sums, Call, Run};
use common::lent::Lent;
use common::pictures::picture_case;
use common::pictures::{accepted_sides, any_cells, any_length, any_sides};
use common::{count, damage_state, each_seed, meets, recipe_of, refilled, some_width, Case};
use reference::random::Random;
use reference::Recipe;

/// How often each number is met by starts, row calls and drains, each limit by
/// lists in which every grown row was yielded, each field as the only cause of
/// a 9, and each kind of stage by accepted calls.
#[derive(Debug, Default)]
struct Met {
    start: [usize; 11],
    row: [usize; 11],
    drain: [usize; 11],
    limits: [usize; 12],
    causes: [usize; 4],
    stages: [usize; 7],
}

impl Met {
    fn called(&mut self, call: &Call, number: u8) {
        let counts = match call.pixels {
            Some(_) => &mut self.row,
            None => &mut self.drain,
        };
        counts[usize::from(number)] += 1;
    }

    /// The only field for which a state is refused 9: the filter, a side, or
    /// the rows yielded.
    fn cause(&mut self, state: &State) {
        let recipe = recipe_of(&state.filter);
        let refused = |side: usize| side == 0 || side > reference::MOST_SIDE;
        let filter = reference::check(&recipe).is_err();
        let sides = [state.width, state.height].map(refused);
        match (filter, sides) {
            (true, [false, false]) => self.causes[0] += 1,
            (false, [true, false]) => self.causes[1] += 1,
            (false, [false, true]) => self.causes[2] += 1,
            (false, [false, false]) => {
                let all = state.height + reference::reach(&recipe.columns);
                self.causes[3] += usize::from(state.emitted > all);
            }
            _ => (),
        }
    }

    /// The stages that an accepted call on this state goes through.
    fn stages(&mut self, state: &State) {
        let Recipe { rows, columns } = recipe_of(&state.filter);
        let e = state.emitted;
        let ring = |at: &dyn Fn(usize) -> bool| some_width(&columns, |n| n > 2 && at(n));
        let met = [
            some_width(&rows, |n| n == 2),
            some_width(&rows, |n| n > 2),
            some_width(&columns, |n| n == 2),
            // The first row, one of the first n, one after them, a drain.
            ring(&|_| e == 0),
            ring(&|n| 0 < e && e < n),
            ring(&|n| e >= n),
            ring(&|_| e >= state.height),
        ];
        count(&mut self.stages, met);
    }

    /// The limits that a list has met, with this many cells beyond the needed.
    fn whole(&mut self, state: &State, more_cells: usize) {
        let recipe = recipe_of(&state.filter);
        let (rows, columns) = (&recipe.rows, &recipe.columns);
        let (width, height) = (state.width, state.height);
        let grown = reference::grown_sides(&recipe, width, height).unwrap();
        let wider = |list, side| some_width(list, |n| n > side);
        // A box whose cells are used again and again.
        let often = |list, side| some_width(list, |n| n > 2 && 2 * n < side);
        let met = [
            reference::weight(&recipe) == reference::MOST_WEIGHT,
            reference::reach(rows) == 255,
            reference::reach(columns) == 255,
            rows.len() == 48,
            columns.len() == 48,
            wider(rows, width),
            wider(columns, height),
            often(rows, grown.0),
            often(columns, grown.1),
            (width, height) == (1, 1),
            more_cells == 0 && reference::list_cells(columns) > 0,
            more_cells > 0 && reference::list_cells(columns) > 0,
        ];
        count(&mut self.limits, met);
    }
}

/// The cells that a start needs, or a small number where it is refused.
fn needed(random: &mut Random, case: &Case, width: usize) -> usize {
    let small = random.between(0, 20);
    reference::needed_cells(&case.recipe(), width).unwrap_or(small)
}

/// A call that is mostly the one that is due, mostly with slices of the right
/// lengths. The lent cells are mostly all there are.
fn any_call(random: &mut Random, state: &State, cells: usize) -> Call {
    let reach = reference::reach(&recipe_of(&state.filter).rows);
    let width = if state.width <= 1024 { state.width } else { 9 };
    let due = state.emitted < state.height;
    let row = if random.between(0, 7) == 0 { !due } else { due };
    let pixels = any_length(random, width);
    let fewer = random.between(0, cells);
    Call {
        pixels: row.then(|| random.pixels(pixels)),
        out: any_length(random, width + reach),
        cells: match random.between(0, 15) {
            0 => cells.saturating_sub(1),
            1 => fewer,
            _ => cells,
        },
    }
}

/// One random start, then calls until all rows are out, and a few more. Where
/// `altered`, the cells are changed between the calls, and the sums are those
/// of the model alone.
fn list_of_calls(seed: u64, altered: bool, met: &mut Met) {
    let (case, mut random) = picture_case(seed);
    let random = &mut random;
    let (width, height) = any_sides(random, &case.recipe());
    let needed = needed(random, &case, width);
    let cells = any_cells(random, needed);
    let (number, mut run, mut stream) = start(&case, random, [width, height, cells]);
    met.start[usize::from(number)] += 1;
    if altered {
        stream = without_sums();
    }
    let all = reference::grown_sides(&case.recipe(), width, height).map_or(0, |sides| sides.1);
    let mut calls = 0;
    let mut further = 4;
    while further > 0 {
        if altered {
            alter(random, &mut run, needed);
        }
        let call = any_call(random, &run.states[0], cells);
        let note = format_args!("call {calls}, {case:?}");
        let number = run.call(random, &mut stream, &call, note);
        met.called(&call, number);
        calls += 1;
        further -= usize::from(number == 9 || run.states[0].emitted == all);
    }
    if number == 0 {
        met.whole(&run.states[0], cells - needed);
    }
}

/// Changes a few of the needed cells, or all of them.
fn alter(random: &mut Random, run: &mut Run, needed: usize) {
    if needed == 0 || needed > run.cells.length() {
        return;
    }
    let cells = &mut run.cells.part_mut()[..needed];
    match random.between(0, 3) {
        0 => cells.fill(random.word()),
        1 => cells.reverse(),
        _ => {
            for _ in 0..random.between(0, 9) {
                let any = random.word();
                cells[random.between(0, needed - 1)] = random.one_of(&[0, 1, any, u64::MAX]);
            }
        }
    }
}

#[test]
fn starts_agree() {
    each_seed(2, |seed| {
        let (case, mut random) = picture_case(seed);
        let (width, height) = any_sides(&mut random, &case.recipe());
        let needed = needed(&mut random, &case, width);
        let cells = any_cells(&mut random, needed);
        start(&case, &mut random, [width, height, cells]);
    });
}

#[test]
fn lists_of_calls_agree() {
    each_seed(10, |seed| list_of_calls(seed, false, &mut Met::default()));
}

#[test]
fn altered_cells_do_no_harm() {
    each_seed(20, |seed| list_of_calls(seed, true, &mut Met::default()));
}

/// One call on a state that no call has returned.
fn call_on_any_state(seed: u64, met: &mut Met) {
    let (case, mut random) = picture_case(seed);
    let random = &mut random;
    let (width, height) = accepted_sides(random, &case.recipe());
    let all = height + reference::reach(&case.recipe().columns);
    let mut state = State {
        filter: case.filter,
        width,
        height,
        emitted: random.between(0, all),
    };
    for _ in 0..random.between(0, 2) {
        damage_state(random, &mut state);
    }
    let filter = refilled(random, &state.filter);
    let needed = reference::needed_cells(&recipe_of(&state.filter), state.width);
    let cells = any_cells(random, needed.unwrap_or(9));
    let mut run = Run {
        states: [state, State { filter, ..state }],
        cells: Lent::words(random, cells),
    };
    let call = any_call(random, &state, cells);
    let note = format_args!("any state, seed {seed}");
    let number = run.call(random, &mut without_sums(), &call, note);
    met.called(&call, number);
    met.cause(&state);
    if number == 0 {
        met.stages(&state);
    }
}

#[test]
fn calls_on_any_state_agree() {
    each_seed(2, |seed| call_on_any_state(seed, &mut Met::default()));
}

/// Calls on other states between the calls of a list. As long as they are
/// refused, the list goes on unharmed.
#[test]
fn refused_calls_on_other_states_do_no_harm() {
    each_seed(50, |seed| {
        let (case, mut random) = picture_case(seed);
        let random = &mut random;
        let (width, height) = accepted_sides(random, &case.recipe());
        let cells = needed(random, &case, width);
        let (_, mut run, mut stream) = start(&case, random, [width, height, cells]);
        let sides = reference::grown_sides(&case.recipe(), width, height);
        for j in 0..sides.map_or(0, |sides| sides.1) {
            let mut other = run.clone();
            damage_state(random, &mut other.states[0]);
            other.states[1] = other.states[0];
            let call = any_call(random, &other.states[0], cells);
            let note = format_args!("row {j}, {case:?}");
            if is_refused(&other.states[0], &call) {
                other.call(random, &mut stream, &call, note);
                run.cells = other.cells;
            }
            let call = Call {
                pixels: (j < height).then(|| random.pixels(width)),
                out: width + reference::reach(&case.recipe().rows),
                cells,
            };
            assert_eq!(run.call(random, &mut stream, &call, note), 0, "{note}");
        }
    });
}

fn is_refused(state: &State, call: &Call) -> bool {
    let state = state_of(state);
    let result = match &call.pixels {
        Some(pixels) => reference::row_refusal(&state, pixels.len(), call.out, call.cells),
        None => reference::drain_refusal(&state, call.out, call.cells),
    };
    result.is_err()
}

#[test]
fn random_cases_meet_every_number_and_limit() {
    let mut lists = Met::default();
    let mut lone = Met::default();
    for seed in 0..1500 {
        list_of_calls(seed, false, &mut lists);
        call_on_any_state(seed, &mut lone);
    }
    assert!(meets(&lists.start, &[0, 1, 2, 3, 4, 5, 8]), "{lists:?}");
    assert!(lists.limits.iter().all(|&n| n >= 10), "{lists:?}");
    assert!(lone.causes.iter().all(|&n| n >= 10), "{lone:?}");
    assert!(lone.stages.iter().all(|&n| n >= 10), "{lone:?}");
    for met in [lists, lone] {
        assert!(meets(&met.row, &[0, 6, 7, 8, 9, 10]), "{met:?}");
        assert!(meets(&met.drain, &[0, 7, 8, 9, 10]), "{met:?}");
    }
}
