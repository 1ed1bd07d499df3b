//! The one pass beside the reference and the model of the cells: a start, and
//! then calls one after another on the same work cells. Each is made for a
//! case's filter and for the twin; number, state, count and all that was lent
//! are compared.

use super::agree::number;
use super::cells::after_call;
use super::lent::Lent;
use super::values::fields_of_state;
use super::{any_state, filter, narrow, recipe_of, Case};
use bore::State;
use reference::random::Random;
use reference::{Called, Stream};
use std::fmt::Arguments;

/// A row call or a drain: the pixels of a row call, and how long an output and
/// how many of the work cells are lent.
#[derive(Clone, Debug)]
pub struct Call {
    pub pixels: Option<Vec<u64>>,
    pub out: usize,
    pub cells: usize,
}

impl Call {
    /// The pixels of the row; a drain has none.
    fn pixels(&self) -> &[u64] {
        self.pixels.as_deref().unwrap_or(&[])
    }
}

/// A stream of the library: the states for a filter and for its twin, and the
/// work cells, which both have to leave alike.
#[derive(Clone, Debug)]
pub struct Run {
    pub states: [State; 2],
    pub cells: Lent<u64>,
}

fn zeros() -> State {
    State {
        filter: filter(&[], &[]),
        width: 0,
        height: 0,
        emitted: 0,
    }
}

/// The reference's form of a state.
pub fn state_of(state: &State) -> reference::State {
    reference::State {
        recipe: recipe_of(&state.filter),
        w: state.width,
        h: state.height,
        yielded: state.emitted,
    }
}

/// A stream of the reference that expects no list of calls: it gives the number
/// and the count of a call on any state, and leaves the sums to the model.
pub fn without_sums() -> Stream {
    Stream::start(&recipe_of(&zeros().filter), 0, 0, 0).stream
}

/// A start with this many cells: the number, the started stream, and that of
/// the reference.
pub fn start(
    case: &Case,
    random: &mut Random,
    [width, height, cells_len]: [usize; 3],
) -> (u8, Run, Stream) {
    let expected = Stream::start(&case.recipe(), width, height, cells_len);
    let number = number(&expected.result);
    let lent = Lent::words(random, cells_len);
    let mut cells = lent.clone();
    cells.set(&vec![0; expected.zeroed]);
    let states = case.both().map(|&filter| {
        let started = State {
            filter,
            width,
            height,
            emitted: 0,
        };
        let mut state = any_state(random);
        let mut found = lent.clone();
        let refusal = bore::start(&filter, width, height, found.part_mut(), &mut state);
        let note = format_args!("start of {width} by {height} with {cells_len} cells, {case:?}");
        assert_eq!(refusal, number, "{note}");
        let left = if number == 0 { started } else { zeros() };
        let [fields, left] = [&state, &left].map(fields_of_state);
        assert_eq!(fields, left, "{note}");
        found.has_to_be(&cells, "cells", note);
        state
    });
    (number, Run { states, cells }, expected.stream)
}

/// What a call is lent, and what it leaves there.
#[derive(Clone)]
struct Buffers {
    pixels: Lent<u8>,
    out: Lent<u64>,
    cells: Lent<u64>,
    count: Lent<u64>,
}

impl Buffers {
    /// Random values but for the pixels and the cells.
    fn lent(random: &mut Random, call: &Call, cells: &Lent<u64>) -> Buffers {
        Buffers {
            pixels: Lent::bytes(random, &narrow(call.pixels())),
            out: Lent::words(random, call.out),
            cells: cells.clone(),
            count: Lent::words(random, 1),
        }
    }

    /// What the call leaves of these: the count is the reference's, output and
    /// cells are the model's. Where the reference has sums, both have to agree.
    fn left(
        &self,
        given: &reference::State,
        call: &Call,
        called: &Called,
        note: Arguments,
    ) -> Buffers {
        let mut left = self.clone();
        left.count.set(&[called.count]);
        if called.result.is_ok() {
            let cells = &self.cells.part()[..call.cells];
            let (out, cells) = after_call(given, call.pixels(), cells);
            if let Some(sums) = &called.sums {
                assert_eq!(
                    &out, sums,
                    "the model's sums, {call:?} on {given:?}, {note}"
                );
            }
            left.out.set(&out);
            left.cells.set(&cells);
        }
        left
    }

    /// Makes the call and returns its number.
    fn call(&mut self, state: &mut State, call: &Call) -> u8 {
        let out = self.out.part_mut();
        let cells = &mut self.cells.part_mut()[..call.cells];
        let count = &mut self.count.part_mut()[0];
        match call.pixels {
            Some(_) => bore::push(state, self.pixels.part(), out, cells, count),
            None => bore::drain(state, out, cells, count),
        }
    }

    fn have_to_be(&self, left: &Buffers, note: Arguments) {
        self.count.has_to_be(&left.count, "count", note);
        self.out.has_to_be(&left.out, "output", note);
        self.cells.has_to_be(&left.cells, "cells", note);
        self.pixels.has_to_be(&left.pixels, "pixels", note);
    }
}

impl Run {
    /// Makes a call for both states, which have to stand for one recipe, and
    /// compares it with the reference's and the model's. Returns the number.
    pub fn call(
        &mut self,
        random: &mut Random,
        stream: &mut Stream,
        call: &Call,
        note: Arguments,
    ) -> u8 {
        let given = state_of(&self.states[0]);
        let called = match &call.pixels {
            Some(pixels) => stream.row(&given, pixels, call.out, call.cells),
            None => stream.drain(&given, call.out, call.cells),
        };
        let number = number(&called.result);
        let lent = Buffers::lent(random, call, &self.cells);
        let left = lent.left(&given, call, &called, note);
        for state in &mut self.states {
            let given = *state;
            let note = format_args!("{call:?} on {given:?}, {note}");
            let mut found = lent.clone();
            assert_eq!(found.call(state, call), number, "{note}");
            let emitted = called.state.yielded;
            let next = State { emitted, ..given };
            let [fields, next] = [&*state, &next].map(fields_of_state);
            assert_eq!(fields, next, "{note}");
            found.have_to_be(&left, note);
        }
        self.cells = left.cells;
        number
    }
}
