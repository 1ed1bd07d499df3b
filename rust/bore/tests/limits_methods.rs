//! The three methods at each limit of document 01: every number stands here as
//! the paper gives it, and every call is compared with the reference too.

mod common;

use bore::{Filter, State};
use common::agree_methods::{direct, passes};
use common::agree_stream::{start, without_sums, Call, Run};
use common::causes::{first, from_bits, with_refusals};
use common::lent::Lent;
use common::pictures::{Picture, REFUSED};
use common::values::fields_of_state;
use common::{any_state, filter, refilled, Case};
use reference::boxes;
use reference::random::Random;

/// Rows 2,3 and columns 2,2. On a picture 5 by 3: R has 4 numbers, C has 3, a
/// grown row 8, the grown picture 5 rows and 40 sums; the one pass needs
/// (1 + 3) + 8 times (1 + 1) = 20 cells, and a call costs 8 times 5.
fn both() -> Filter {
    filter(&[2, 3], &[2, 2])
}

/// A state of `both` on a picture 5 by 3.
fn yielded(emitted: usize) -> State {
    State {
        filter: both(),
        width: 5,
        height: 3,
        emitted,
    }
}

/// A row call with this many pixels, or a drain.
fn call_on(random: &mut Random, state: State, pixels: Option<usize>, lengths: [usize; 2]) -> u8 {
    let twin = refilled(random, &state.filter);
    let [out, cells] = lengths;
    let mut run = Run {
        states: [
            state,
            State {
                filter: twin,
                ..state
            },
        ],
        cells: Lent::words(random, cells),
    };
    let call = Call {
        pixels: pixels.map(|length| random.pixels(length)),
        out,
        cells,
    };
    run.call(random, &mut without_sums(), &call, format_args!("a limit"))
}

#[test]
fn direct_refuses_in_order() {
    let mut random = Random::new(1);
    let case = Case::fixed(&mut random, both());
    for ([pixels, r, c, out], number) in [
        ([15, 4, 3, 40], 0),
        ([15, 4, 3, 39], 7),
        ([15, 4, 3, 41], 7),
        ([15, 4, 3, 15], 7),
        ([15, 4, 3, 0], 7),
        ([15, 4, 2, 40], 7),
        ([15, 4, 4, 40], 7),
        ([15, 3, 3, 40], 7),
        ([15, 5, 3, 40], 7),
        ([15, 3, 4, 40], 7),
        ([15, 0, 0, 0], 7),
        ([14, 4, 3, 40], 6),
        ([16, 4, 3, 40], 6),
        ([5, 4, 3, 40], 6),
        ([0, 4, 3, 40], 6),
        ([40, 0, 0, 0], 6),
    ] {
        let picture = Picture::random(&mut random, 5, 3, pixels);
        let found = direct(&case, &mut random, &picture, [r, c, out]);
        assert_eq!(found, number, "{pixels} pixels, lengths {r}, {c}, {out}");
    }
    for (width, height) in REFUSED {
        for lengths in [[4, 3, 40], [0, 0, 0]] {
            for pixels in [0, 1, 15] {
                let picture = Picture::random(&mut random, width, height, pixels);
                let found = direct(&case, &mut random, &picture, lengths);
                assert_eq!(found, 5, "{width} by {height}");
            }
        }
    }
}

#[test]
fn passes_refuse_in_order() {
    let mut random = Random::new(2);
    let case = Case::fixed(&mut random, both());
    for ([pixels, out, cells], number) in [
        ([15, 40, 40], 0),
        ([15, 40, 41], 0),
        ([15, 40, 1000], 0),
        ([15, 40, 39], 8),
        ([15, 40, 20], 8),
        ([15, 40, 0], 8),
        ([15, 39, 40], 7),
        ([15, 41, 41], 7),
        ([15, 39, 39], 7),
        ([15, 0, 0], 7),
        ([14, 40, 40], 6),
        ([16, 40, 40], 6),
        ([0, 0, 0], 6),
    ] {
        let picture = Picture::random(&mut random, 5, 3, pixels);
        let found = passes(&case, &mut random, &picture, [out, cells]);
        assert_eq!(found, number, "{pixels} pixels, lengths {out}, {cells}");
    }
    for (width, height) in REFUSED {
        for lengths in [[40, 40], [0, 0]] {
            for pixels in [0, 1, 15] {
                let picture = Picture::random(&mut random, width, height, pixels);
                let found = passes(&case, &mut random, &picture, lengths);
                assert_eq!(found, 5, "{width} by {height}");
            }
        }
    }
}

#[test]
fn start_refuses_in_order() {
    let mut random = Random::new(3);
    let case = Case::fixed(&mut random, both());
    for (cells, number) in [(20, 0), (21, 0), (500, 0), (19, 8), (4, 8), (0, 8)] {
        let found = start(&case, &mut random, [5, 3, cells]).0;
        assert_eq!(found, number, "{cells} cells");
    }
    for (width, height) in REFUSED {
        for cells in [0, 20, 500] {
            let found = start(&case, &mut random, [width, height, cells]).0;
            assert_eq!(found, 5, "{width} by {height}");
        }
    }
}

/// Every choice of causes 1 to 4 together with every choice of later ones.
#[test]
fn the_lowest_of_several_refusals_wins() {
    let mut random = Random::new(4);
    for bits in 0..256 {
        let wished: [bool; 8] = from_bits(bits);
        let [_, _, _, _, side, pixels, output, few] = wished;
        let on_rows = from_bits(random.between(0, 15));
        let causes = std::array::from_fn(|i| wished[i]);
        let filter = with_refusals(&mut random, causes, on_rows);
        let case = Case::fixed(&mut random, filter);
        let number = first(wished, [1, 2, 3, 4, 5, 6, 7, 8]);
        // All widths of an accepted filter are 1 here, so nothing grows.
        let (width, height) = random.one_of(&[(2, 2), (4, 1)]);
        let width = if side {
            random.one_of(&[0, 1025])
        } else {
            width
        };
        let given = Picture::random(&mut random, width, height, if pixels { 3 } else { 4 });
        let out = if output { random.one_of(&[3, 5]) } else { 4 };
        let cells = if few { random.between(0, 3) } else { 4 };
        let found = passes(&case, &mut random, &given, [out, cells]);
        assert_eq!(found, number, "{case:?}");
        let [r, c, out] = random.one_of(&match output {
            true => [[0, 1, 4], [1, 2, 4], [1, 1, 3]],
            false => [[1, 1, 4]; 3],
        });
        let found = direct(&case, &mut random, &given, [r, c, out]);
        assert_eq!(found, if number == 8 { 0 } else { number }, "{case:?}");
        let found = start(&case, &mut random, [width, height, 0]).0;
        assert_eq!(found, if number > 5 { 0 } else { number }, "{case:?}");
    }
}

#[test]
fn rows_and_drains_have_their_turn() {
    let mut random = Random::new(5);
    for (emitted, row, drain) in [
        (0, 0, 10),
        (1, 0, 10),
        (2, 0, 10),
        (3, 10, 0),
        (4, 10, 0),
        (5, 10, 10),
        (6, 9, 9),
        (7, 9, 9),
        (1 << 32, 9, 9),
        (usize::MAX, 9, 9),
    ] {
        let state = yielded(emitted);
        let found = call_on(&mut random, state, Some(5), [8, 20]);
        assert_eq!(found, row, "row call after {emitted} rows");
        let found = call_on(&mut random, state, None, [8, 20]);
        assert_eq!(found, drain, "drain after {emitted} rows");
    }
}

/// Without a reach on the columns no drain is ever due.
#[test]
fn no_drain_without_column_reach() {
    let mut random = Random::new(6);
    for columns in [&[][..], &[1], &[1; 48]] {
        for (emitted, row, drain) in [(0, 0, 10), (1, 10, 10), (2, 9, 9)] {
            let state = State {
                filter: filter(&[2], columns),
                width: 1,
                height: 1,
                emitted,
            };
            assert_eq!(call_on(&mut random, state, Some(1), [2, 1]), row);
            assert_eq!(call_on(&mut random, state, None, [2, 1]), drain);
        }
    }
}

#[test]
fn calls_judge_their_slices_in_order() {
    let mut random = Random::new(7);
    for ([pixels, out, cells], number) in [
        ([5, 8, 20], 0),
        ([5, 8, 21], 0),
        ([5, 8, 400], 0),
        ([5, 8, 19], 8),
        ([5, 8, 0], 8),
        ([5, 7, 20], 7),
        ([5, 9, 20], 7),
        ([5, 5, 0], 7),
        ([5, 0, 0], 7),
        ([4, 8, 20], 6),
        ([6, 8, 20], 6),
        ([8, 8, 20], 6),
        ([15, 40, 20], 6),
        ([0, 0, 0], 6),
    ] {
        for emitted in 0..3 {
            let found = call_on(&mut random, yielded(emitted), Some(pixels), [out, cells]);
            assert_eq!(found, number, "{pixels} pixels, lengths {out}, {cells}");
        }
        // A drain has no pixels to be refused for.
        let number = match (out, cells) {
            (8, 20..) => 0,
            (8, _) => 8,
            _ => 7,
        };
        for emitted in 3..5 {
            let found = call_on(&mut random, yielded(emitted), None, [out, cells]);
            assert_eq!(found, number, "drain, lengths {out}, {cells}");
        }
    }
}

/// A state whose filter or sides would be refused gets 9 whatever else is
/// wrong, and so does the state of zeros.
#[test]
fn refused_states_get_9() {
    let mut random = Random::new(8);
    let mut states = vec![];
    for (width, height) in REFUSED {
        states.push(State {
            width,
            height,
            ..yielded(0)
        });
    }
    for (rows, columns) in [
        (&[0][..], &[][..]),
        (&[], &[2, 0]),
        (&[255, 3], &[]),
        (&[], &[255, 3]),
        (&[2; 23], &[2; 22]),
    ] {
        let mut state = yielded(0);
        state.filter = filter(rows, columns);
        states.push(state);
    }
    for (row_count, column_count) in [(49, 2), (2, 49), (255, 255)] {
        let mut state = yielded(0);
        state.filter.rows.count = row_count;
        state.filter.columns.count = column_count;
        states.push(state);
    }
    for state in states {
        for emitted in [0, 3, 5, 6, usize::MAX] {
            let state = State { emitted, ..state };
            for (pixels, lengths) in [(5, [8, 20]), (0, [0, 0]), (5, [7, 20])] {
                let found = call_on(&mut random, state, Some(pixels), lengths);
                assert_eq!(found, 9, "{state:?}");
                assert_eq!(call_on(&mut random, state, None, lengths), 9, "{state:?}");
            }
        }
    }
}

/// A call's causes in every choice: 9, 10, then 6, 7, 8.
#[test]
fn running_calls_refuse_in_order() {
    let mut random = Random::new(9);
    for bits in 0..128 {
        let wished: [bool; 7] = from_bits(bits);
        let [recipe, side, late, turn, pixels, out, cells] = wished;
        let mut state = yielded(2);
        if recipe {
            state.filter.rows.widths[1] = 0;
        }
        if side {
            state.width = 0;
        }
        for (row, turned) in [(true, 3), (false, 2)] {
            state.emitted = match (late, turn, row) {
                (true, _, _) => 6,
                (_, true, _) => turned,
                (_, _, true) => 2,
                (_, _, false) => 4,
            };
            let given = row.then_some(if pixels { 4 } else { 5 });
            let lengths = [if out { 7 } else { 8 }, if cells { 19 } else { 20 }];
            let applies = [recipe, side, late, turn, pixels && row, out, cells];
            let number = first(applies, [9, 9, 9, 10, 6, 7, 8]);
            let found = call_on(&mut random, state, given, lengths);
            assert_eq!(found, number, "{state:?}, {given:?}, {lengths:?}");
        }
    }
}

/// The state of zeros that a refused start leaves gets 9 from every call.
#[test]
fn calls_after_a_refused_start_get_9() {
    let mut random = Random::new(10);
    let case = Case::fixed(&mut random, both());
    for (sides, number) in [([5, 3, 19], 8), ([0, 3, 20], 5), ([5, 1025, 20], 5)] {
        let (found, mut run, mut stream) = start(&case, &mut random, sides);
        assert_eq!(found, number);
        for pixels in [Some(vec![7; 5]), Some(vec![]), None] {
            let call = Call {
                pixels,
                out: 8,
                cells: sides[2],
            };
            let note = format_args!("after a refused start");
            assert_eq!(run.call(&mut random, &mut stream, &call, note), 9);
        }
    }
}

/// (w + rx) times the cost of both lists, for rows and drains alike: width 1
/// costs 0, width 2 costs 1, wider costs 2. A refused call counts 0.
#[test]
fn counts() {
    let mut random = Random::new(11);
    for (rows, columns, width, count) in [
        (&[2, 3][..], &[2, 2][..], 5, 40),
        (&[], &[2], 5, 5),
        (&[], &[3], 5, 10),
        (&[1, 1], &[1, 255], 7, 14),
        (&[1], &[2, 1, 2], 1024, 2048),
        (&[255, 2], &[4], 1024, 1279 * 5),
        (&[2; 22], &[2; 22], 1, 23 * 44),
    ] {
        let filter = filter(rows, columns);
        let mut state = any_state(&mut random);
        let mut cells = vec![0; 400_000];
        let mut out = vec![0; width + reference::reach(&boxes(rows))];
        assert_eq!(bore::start(&filter, width, 1, &mut cells, &mut state), 0);
        let mut found = 7;
        let pixels = vec![255; width];
        assert_eq!(
            bore::push(&mut state, &pixels, &mut out, &mut cells, &mut found),
            0
        );
        assert_eq!(found, count, "{rows:?}, {columns:?}");
        assert_eq!(
            bore::push(&mut state, &pixels, &mut out, &mut cells, &mut found),
            10
        );
        assert_eq!(found, 0, "{rows:?}, {columns:?}");
        assert_eq!(bore::drain(&mut state, &mut out, &mut cells, &mut found), 0);
        assert_eq!(found, count, "{rows:?}, {columns:?}");
    }
}

/// A start sets the needed cells to zero and no other, whatever they held.
#[test]
fn start_sets_just_the_needed_cells() {
    let mut state = any_state(&mut Random::new(12));
    for more in [0, 1, 100] {
        let mut cells = vec![9; 20 + more];
        assert_eq!(bore::start(&both(), 5, 3, &mut cells, &mut state), 0);
        assert_eq!(fields_of_state(&state), fields_of_state(&yielded(0)));
        assert_eq!(cells[..20], [0; 20]);
        assert_eq!(cells[20..], vec![9; more]);
    }
    let ones = filter(&[1; 48], &[1; 48]);
    let mut cells = [9; 3];
    assert_eq!(bore::start(&ones, 1024, 1024, &mut cells, &mut state), 0);
    assert_eq!(cells, [9; 3]);
    assert_eq!(bore::start(&ones, 1024, 1024, &mut [], &mut state), 0);
}

/// The page's drawing of the cells: rows 2,3 and columns 2,4 on a picture 3
/// wide, whose grown rows are 6 wide. The third call has column 4's slot 2 to
/// write and finds the last totals in slot 1.
#[test]
fn cells_stand_as_drawn() {
    let filter = filter(&[2, 3], &[2, 4]);
    let mut state = State {
        filter,
        width: 3,
        height: 9,
        emitted: 2,
    };
    let mut cells: Vec<u64> = (1000..1034).collect();
    let mut out = [0; 6];
    let mut count = 0;
    let number = bore::push(&mut state, &[1, 2, 3], &mut out, &mut cells, &mut count);
    assert_eq!(number, 0);
    // Row 2 makes 1 3 5 3 0 0 of the pixels, row 3 then 1 4 9 11 8 3.
    let mut expected: Vec<u64> = (1000..1034).collect();
    expected[0] = 0;
    expected[1..4].copy_from_slice(&[12, 12, 12]);
    expected[4..10].copy_from_slice(&[1, 4, 9, 11, 8, 3]);
    // Column 2 adds 1004 to 1009; column 4 adds 1016 to 1021.
    expected[22..28].copy_from_slice(&[2021, 2026, 2033, 2037, 2036, 2033]);
    assert_eq!(cells, expected);
    // The totals less 1022 to 1027.
    assert_eq!(out, [999, 1003, 1009, 1012, 1010, 1006]);
}
