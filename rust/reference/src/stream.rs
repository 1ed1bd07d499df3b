//! The one pass seen from outside: start, row calls and drains over a state
//! value. No running sum is kept: the model remembers the rows given so far
//! and forms each grown row by the definition of the exact sum.

use crate::picture::Picture;
use crate::recipe::{check_sides, coefficients_of, needed_cells, reach, row_cost, Recipe};

/// The state that goes from call to call. The default is the state of zeros.
#[derive(Clone, Debug, Default, PartialEq, Eq)]
pub struct State {
    pub recipe: Recipe,
    pub w: usize,
    pub h: usize,
    pub yielded: usize,
}

/// What a start returns: after a refusal a state of zeros.
#[derive(Clone, Debug)]
pub struct Started {
    pub result: Result<(), u8>,
    pub state: State,
    /// The number of work cells, from the first on, that the start sets to 0.
    pub zeroed: usize,
    pub stream: Stream,
}

/// What a row call or a drain returns: after a refusal the given state and a
/// count of 0.
#[derive(Clone, Debug, PartialEq, Eq)]
pub struct Called {
    pub result: Result<(), u8>,
    pub state: State,
    pub count: u64,
    /// The grown row of an accepted call. Absent when the call is refused, and
    /// when a state was given that is not the one returned before, since the
    /// paper names the sums only for an unbroken list of calls.
    pub sums: Option<Vec<u64>>,
}

/// What stands in place of the work cells: the state that the next call is due
/// to get, as long as the list of calls is unbroken, and the rows given so far.
#[derive(Clone, Debug)]
pub struct Stream {
    due: Option<State>,
    given: Vec<u64>,
}

/// The refusals of a start: 1 to 5, then 8.
pub fn start_refusal(recipe: &Recipe, w: usize, h: usize, cells_len: usize) -> Result<(), u8> {
    check_sides(recipe, w, h)?;
    if cells_len < needed_cells(recipe, w)? {
        return Err(8);
    }
    Ok(())
}

/// Refusal 9: the recipe or a side of the state would be refused, or more rows
/// are yielded than the grown height.
fn state_refusal(state: &State) -> Result<(), u8> {
    if check_sides(&state.recipe, state.w, state.h).is_err() {
        return Err(9);
    }
    if state.yielded > state.h + reach(&state.recipe.columns) {
        return Err(9);
    }
    Ok(())
}

/// Refusals 7 and 8 of a row call or drain whose state is in order.
fn buffer_refusal(state: &State, out_len: usize, cells_len: usize) -> Result<(), u8> {
    if out_len != state.w + reach(&state.recipe.rows) {
        return Err(7);
    }
    if cells_len < needed_cells(&state.recipe, state.w)? {
        return Err(8);
    }
    Ok(())
}

/// The refusals of a row call: 9, 10, then 6, 7, 8.
pub fn row_refusal(
    state: &State,
    pixels_len: usize,
    out_len: usize,
    cells_len: usize,
) -> Result<(), u8> {
    state_refusal(state)?;
    if state.yielded >= state.h {
        return Err(10);
    }
    if pixels_len != state.w {
        return Err(6);
    }
    buffer_refusal(state, out_len, cells_len)
}

/// The refusals of a drain: 9, 10, then 7, 8.
pub fn drain_refusal(state: &State, out_len: usize, cells_len: usize) -> Result<(), u8> {
    state_refusal(state)?;
    let all = state.h + reach(&state.recipe.columns);
    if state.yielded < state.h || state.yielded == all {
        return Err(10);
    }
    buffer_refusal(state, out_len, cells_len)
}

fn refused(number: u8, state: &State) -> Called {
    Called {
        result: Err(number),
        state: state.clone(),
        count: 0,
        sums: None,
    }
}

impl Stream {
    pub fn start(recipe: &Recipe, w: usize, h: usize, cells_len: usize) -> Started {
        let mut stream = Stream {
            due: None,
            given: Vec::new(),
        };
        let mut state = State::default();
        let mut zeroed = 0;
        let result = start_refusal(recipe, w, h, cells_len);
        if result.is_ok() {
            state.recipe = recipe.clone();
            state.w = w;
            state.h = h;
            zeroed = needed_cells(recipe, w).expect("the start is accepted");
            stream.due = Some(state.clone());
        }
        Started {
            result,
            state,
            zeroed,
            stream,
        }
    }

    pub fn row(
        &mut self,
        state: &State,
        pixels: &[u64],
        out_len: usize,
        cells_len: usize,
    ) -> Called {
        match row_refusal(state, pixels.len(), out_len, cells_len) {
            Err(number) => refused(number, state),
            Ok(()) => self.accepted(state, pixels),
        }
    }

    pub fn drain(&mut self, state: &State, out_len: usize, cells_len: usize) -> Called {
        match drain_refusal(state, out_len, cells_len) {
            Err(number) => refused(number, state),
            Ok(()) => self.accepted(state, &[]),
        }
    }

    /// An accepted call: a drain adds no pixels, and the rows below the picture
    /// are black by the definition of the sum.
    fn accepted(&mut self, state: &State, pixels: &[u64]) -> Called {
        let mut next = state.clone();
        next.yielded += 1;
        let unbroken = self.due.as_ref() == Some(state);
        let mut sums = None;
        self.due = None;
        if unbroken {
            self.given.extend_from_slice(pixels);
            sums = Some(self.grown_row(state));
            self.due = Some(next.clone());
        }
        Called {
            result: Ok(()),
            count: row_cost(&state.recipe, state.w).expect("the state is accepted"),
            state: next,
            sums,
        }
    }

    /// The grown row whose number is the count of rows yielded before it.
    fn grown_row(&self, state: &State) -> Vec<u64> {
        let r = coefficients_of(&state.recipe.rows);
        let c = coefficients_of(&state.recipe.columns);
        let picture = Picture {
            w: state.w,
            h: self.given.len() / state.w,
            pixels: &self.given,
        };
        let width = state.w + reach(&state.recipe.rows);
        (0..width)
            .map(|i| picture.sum(&r, &c, i, state.yielded))
            .collect()
    }
}
