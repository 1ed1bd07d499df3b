//! The one pass seen from outside: states, counts, refusals and yielded rows.

use crate::{one_pass, rows, sums};
use reference::random::Random;
use reference::{
    drain_refusal, exact_sums, grown_sides, needed_cells, row_refusal, Called, Recipe, State,
    Stream,
};

fn both() -> Recipe {
    Recipe::new(&[2, 3], &[2, 2])
}

/// A state on a picture 5 wide and 3 high that has yielded this many rows.
fn state(yielded: usize) -> State {
    State {
        recipe: both(),
        w: 5,
        h: 3,
        yielded,
    }
}

#[test]
fn accepted_start_returns_its_state() {
    let needed = needed_cells(&both(), 5).unwrap();
    let started = Stream::start(&both(), 5, 3, needed + 7);
    assert_eq!(started.result, Ok(()));
    assert_eq!(started.state, state(0));
    assert_eq!(started.zeroed, needed);
}

#[test]
fn refused_start_returns_a_state_of_zeros_that_gets_9() {
    let needed = needed_cells(&both(), 5).unwrap();
    for (w, cells, number) in [(5, needed - 1, 8), (0, 1000, 5), (1025, 0, 5)] {
        let mut started = Stream::start(&both(), w, 3, cells);
        assert_eq!(started.result, Err(number));
        assert_eq!(started.state, State::default());
        assert_eq!(started.zeroed, 0);
        let zeros = State::default();
        assert_eq!(started.stream.row(&zeros, &[], 0, 0).result, Err(9));
        assert_eq!(started.stream.drain(&zeros, 0, 0).result, Err(9));
    }
}

#[test]
fn refused_states_get_9() {
    let mut damaged = vec![state(6), state(usize::MAX)];
    for (w, h) in [(0, 3), (5, 0), (1025, 3), (5, 1025)] {
        damaged.push(State { w, h, ..state(0) });
    }
    for recipe in [rows(&[1; 49]), rows(&[0]), rows(&[255, 3]), rows(&[2; 45])] {
        damaged.push(State { recipe, ..state(0) });
    }
    for given in damaged {
        assert_eq!(row_refusal(&given, 0, 0, 0), Err(9));
        assert_eq!(drain_refusal(&given, 0, 0), Err(9));
    }
}

#[test]
fn rows_and_drains_out_of_turn_get_10() {
    for yielded in 0..=5 {
        let row_due = yielded < 3;
        let drain_due = yielded == 3 || yielded == 4;
        let row = row_refusal(&state(yielded), 0, 0, 0);
        assert_eq!(row, Err(if row_due { 6 } else { 10 }));
        let drain = drain_refusal(&state(yielded), 0, 0);
        assert_eq!(drain, Err(if drain_due { 7 } else { 10 }));
    }
}

#[test]
fn buffers_are_judged_in_the_order_6_7_8() {
    let needed = needed_cells(&both(), 5).unwrap();
    for wrong in [0, 4, 6] {
        assert_eq!(row_refusal(&state(2), wrong, 0, 0), Err(6));
    }
    for wrong in [0, 7, 9] {
        assert_eq!(row_refusal(&state(2), 5, wrong, 0), Err(7));
        assert_eq!(drain_refusal(&state(3), wrong, 0), Err(7));
    }
    assert_eq!(row_refusal(&state(2), 5, 8, needed - 1), Err(8));
    assert_eq!(drain_refusal(&state(3), 8, needed - 1), Err(8));
    assert_eq!(row_refusal(&state(2), 5, 8, needed), Ok(()));
    assert_eq!(drain_refusal(&state(3), 8, needed + 1), Ok(()));
}

#[test]
fn without_column_reach_no_drain_is_due() {
    let given = State {
        recipe: rows(&[2]),
        w: 1,
        h: 1,
        yielded: 1,
    };
    assert_eq!(drain_refusal(&given, 2, 1), Err(10));
    assert_eq!(row_refusal(&given, 1, 2, 1), Err(10));
}

#[test]
fn refused_call_returns_the_given_state_and_no_count() {
    let mut stream = Stream::start(&both(), 5, 3, 1000).stream;
    let called = stream.row(&state(0), &[1; 4], 8, 1000);
    let expected = Called {
        result: Err(6),
        state: state(0),
        count: 0,
        sums: None,
    };
    assert_eq!(called, expected);
}

#[test]
fn count_follows_the_formula() {
    let mut stream = Stream::start(&both(), 5, 3, 1000).stream;
    let called = stream.row(&state(0), &[1; 5], 8, 1000);
    // 5 + 3 places; the widths 2, 3 and 2, 2 cost 1, 2 and 1, 1.
    assert_eq!(called.count, 8 * 5);
    assert_eq!(called.state, state(1));
    let ones = Recipe::new(&[1, 1], &[1]);
    assert_eq!(one_pass(&ones, 4, 2, &[7; 8]), (vec![7; 8], 0));
    let (_, total) = one_pass(&both(), 5, 3, &[1; 15]);
    assert_eq!(total, 5 * 8 * 5);
}

#[test]
fn needed_cells_by_width() {
    assert_eq!(needed_cells(&rows(&[1, 1]), 9), Ok(0));
    assert_eq!(needed_cells(&rows(&[2, 2]), 9), Ok(2));
    assert_eq!(needed_cells(&rows(&[3, 255]), 9), Err(3));
    assert_eq!(needed_cells(&rows(&[3, 254]), 9), Ok(257));
    assert_eq!(
        needed_cells(&Recipe::new(&[3], &[1, 2, 3]), 9),
        Ok(3 + 11 * 4)
    );
}

#[test]
fn grown_row_does_not_need_the_later_rows() {
    let mut stream = Stream::start(&both(), 5, 3, 1000).stream;
    let first = [9, 0, 255, 3, 4];
    let yielded = stream.row(&state(0), &first, 8, 1000).sums.unwrap();
    for later in [0, 77] {
        let mut pixels = first.to_vec();
        pixels.resize(15, later);
        assert_eq!(yielded, sums(&both(), 5, 3, &pixels)[..8]);
    }
}

#[test]
fn foreign_state_yields_no_promised_sums() {
    let mut stream = Stream::start(&both(), 5, 3, 1000).stream;
    let called = stream.row(&state(1), &[1; 5], 8, 1000);
    assert_eq!((called.result, called.count), (Ok(()), 40));
    assert_eq!((called.state, called.sums), (state(2), None));
    assert_eq!(stream.row(&state(0), &[1; 5], 8, 1000).sums, None);
}

/// A call that is refused in the given state, which must be in order.
fn refused_call(random: &mut Random, stream: &mut Stream, given: &State) -> Called {
    let cells = needed_cells(&given.recipe, given.w).unwrap();
    let (width, _) = grown_sides(&given.recipe, given.w, given.h).unwrap();
    let row = vec![200; given.w];
    let row_due = given.yielded < given.h;
    match random.between(0, 3) {
        0 if row_due => stream.drain(given, width, cells),
        0 => stream.row(given, &row, width, cells),
        1 => stream.row(given, &row[1..], width, cells),
        2 if row_due => stream.row(given, &row, width + 1, cells),
        2 => stream.drain(given, width + 1, cells),
        _ => stream.row(given, &row, 0, cells),
    }
}

#[test]
fn refused_calls_between_do_no_harm() {
    let mut random = Random::new(5);
    for _ in 0..150 {
        let recipe = random.valid_recipe(9);
        let (w, h) = (random.between(1, 6), random.between(1, 6));
        let pixels = random.pixels(w * h);
        let (width, height) = grown_sides(&recipe, w, h).unwrap();
        let cells = needed_cells(&recipe, w).unwrap();
        let started = Stream::start(&recipe, w, h, cells);
        let (mut stream, mut given) = (started.stream, started.state);
        let mut all = Vec::new();
        while all.len() < width * height {
            if random.coin() {
                let refused = refused_call(&mut random, &mut stream, &given);
                assert!(refused.result.is_err());
                assert_eq!((refused.state, refused.count), (given.clone(), 0));
            }
            let at = given.yielded * w;
            let called = match pixels.get(at..at + w) {
                Some(row) => stream.row(&given, row, width, cells),
                None => stream.drain(&given, width, cells),
            };
            all.extend(called.sums.unwrap());
            given = called.state;
        }
        assert_eq!(Ok(all), exact_sums(&recipe, w, h, &pixels));
        assert_eq!(given.yielded, height);
        assert_eq!(stream.drain(&given, width, cells).result, Err(10));
    }
}
