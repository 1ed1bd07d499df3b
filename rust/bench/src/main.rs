//! Times of the library beside the same algorithms in safe Rust, as tables in
//! Markdown: `cargo run --offline --release -p bench`.
//!
//! Before a time is taken, the library's results are compared with those of
//! every Rust version; a difference ends the program.

#![forbid(unsafe_code)]

mod cards;
mod checks;
mod convolution;
mod direct;
mod equivalent;
mod gray_tables;
mod gray_work;
mod greys;
mod job_tables;
mod jobs;
mod ladder;
mod passes;
mod programs;
mod rims;

use bench::{stages, stream, timing, work};
use bore::Filter;
use convolution::{Conventional, TwoSteps};
use std::hint::black_box;
use timing::alternate;
use work::Work;

/// The side of the picture.
const SIDE: usize = 1024;

/// The recipes of the first table: name, row widths, column widths.
const RECIPES: [(&str, &[u8], &[u8]); 3] = [
    ("5 by 5 binomial", &[2, 2, 2, 2], &[2, 2, 2, 2]),
    ("three boxes of 15 each way", &[15, 15, 15], &[15, 15, 15]),
    (
        "ladder 2,3,4,6,8,12,16 along rows",
        &[2, 3, 4, 6, 8, 12, 16],
        &[],
    ),
];

/// A method's name, the library's call of it, and the Rust version.
type Method = (&'static str, fn(&mut Work), fn(&mut Work));

const DIRECT: Method = ("direct", Work::direct, direct::run);
const PASSES: Method = ("pass by pass", Work::passes, passes::run);
const STREAM: Method = ("one pass", Work::stream, stream::run);

/// The work of the library and that of Rust, each after one run of the method.
/// The results have to agree.
fn compared(rows: &[u8], columns: &[u8], method: Method) -> [Work; 2] {
    let (name, by_library, by_rust) = method;
    let mut library = Work::new(rows, columns, SIDE);
    let mut rust = library.clone();
    by_library(&mut library);
    by_rust(&mut rust);
    let agree = library.results() == rust.results();
    assert!(agree, "{name}, rows {rows:?}, columns {columns:?}");
    [library, rust]
}

/// The library beside the same algorithm in Rust.
fn same_algorithm() {
    println!("| Recipe | Method | Library, ms | Rust, ms | Library / Rust |");
    println!("|---|---|---|---|---|");
    for (name, rows, columns) in RECIPES {
        for method in [STREAM, PASSES, DIRECT] {
            let [mut library, mut rust] = compared(rows, columns, method);
            let (method, by_library, by_rust) = method;
            let [a, b] = alternate([&mut || by_library(&mut library), &mut || by_rust(&mut rust)]);
            println!("| {name} | {method} | {a:.2} | {b:.2} | {:.2} |", a / b);
        }
    }
}

/// The one pass of the library beside a convolution with 25 multiplications
/// and its decomposition into two steps.
fn conventional() {
    let binomial = RECIPES[0];
    let mut library = Work::new(binomial.1, binomial.2, SIDE);
    let pixels = library.pixels.clone();
    library.stream();
    let mut whole = Conventional::<u64>::new(SIDE);
    let mut narrow = Conventional::<u16>::new(SIDE);
    let mut steps = TwoSteps::<u64>::new(SIDE);
    let mut narrow_steps = TwoSteps::<u16>::new(SIDE);
    whole.run_by_places(&pixels);
    narrow.run_by_rows(&pixels);
    steps.run(&pixels);
    narrow_steps.run(&pixels);
    for out in [whole.out(), narrow.out(), steps.out(), narrow_steps.out()] {
        assert!(library.out == out, "the convolutions agree");
    }
    let [one_pass, whole, steps, narrow, narrow_steps] = alternate([
        &mut || library.stream(),
        &mut || whole.run_by_places(&pixels),
        &mut || steps.run(&pixels),
        &mut || narrow.run_by_rows(&pixels),
        &mut || narrow_steps.run(&pixels),
    ]);
    println!("| 5 by 5 binomial | ms | against the one pass | Table 3 of 001 |");
    println!("|---|---|---|---|");
    println!("| one pass, library | {one_pass:.2} | 1.0 | 1.0 |");
    for (name, time, printed) in [
        ("25 multiplications, 64-bit numbers", whole, "8.5"),
        ("two steps of 5, 64-bit numbers", steps, "4.2"),
        ("25 multiplications, 16-bit numbers", narrow, ""),
        ("two steps of 5, 16-bit numbers", narrow_steps, ""),
    ] {
        println!(
            "| {name} | {time:.2} | {:.1} | {printed} |",
            time / one_pass
        );
    }
}

/// One box each way, narrow and wide, in the library. The work is the same but
/// for the places by which the picture grows.
fn widths() {
    println!("| One box each way | Width 3, ms | Width 64, ms | 64 / 3 |");
    println!("|---|---|---|---|");
    for method in [STREAM, PASSES] {
        let [mut narrow, _] = compared(&[3], &[3], method);
        let [mut wide, _] = compared(&[64], &[64], method);
        let (method, by_library, _) = method;
        let [a, b] = alternate([&mut || by_library(&mut narrow), &mut || {
            by_library(&mut wide)
        }]);
        println!("| {method} | {a:.2} | {b:.2} | {:.2} |", b / a);
    }
}

/// The rows of the ladder's table: name, level, and whether it is on both axes.
const LEVELS: [(&str, usize, bool); 2] = [
    ("level 5 on both axes", 5, true),
    ("level 8 along rows", 8, false),
];

/// The ladder of the library beside its pass by pass on the level's recipe, and
/// beside the same climb in Rust.
fn climbing() {
    println!("The ladder, level by level, beside the library's pass by pass on the level's recipe");
    println!("and the same climb in Rust.");
    println!();
    println!(
        "| Ladder | Library, ms | Pass by pass, ms | Rust, ms | Library / pass by pass \
         | Library / Rust |"
    );
    println!("|---|---|---|---|---|---|");
    for (name, level, both) in LEVELS {
        let list = &ladder::WIDTHS[..level + 2];
        let columns = if both { list } else { &[] };
        let mut library = Work::new(list, columns, SIDE);
        let (mut passes, mut rust) = (library.clone(), library.clone());
        library.ladder(level);
        passes.passes();
        ladder::run(level, &mut rust);
        assert!(library.out == passes.out, "{name}, pass by pass");
        assert!(library.out == rust.out, "{name}, Rust");
        let [a, b, c] = alternate([
            &mut || library.ladder(level),
            &mut || passes.passes(),
            &mut || ladder::run(level, &mut rust),
        ]);
        let (to_passes, to_rust) = (a / b, a / c);
        println!("| {name} | {a:.2} | {b:.2} | {c:.2} | {to_passes:.2} | {to_rust:.2} |");
    }
}

/// The widths above 1 that the comparing call gets each way; ones make them 48.
const COMPARED: [u8; 15] = [2, 2, 2, 2, 2, 2, 2, 2, 3, 3, 3, 3, 4, 4, 5];

/// The pairs for which the comparing call is made in one run. The milliseconds
/// of a thousand calls are the microseconds of one.
const PAIRS: usize = 1000;

/// The comparing call of the library, or that in Rust.
type Comparing = fn(&Filter, &Filter, &mut u8) -> u8;

fn compare_all(pairs: &[[Filter; 2]], call: Comparing) {
    for [a, b] in pairs {
        let mut same = 7;
        let number = call(black_box(a), black_box(b), &mut same);
        assert_eq!((number, same), (0, 1), "the two are equal");
    }
}

/// Both calls have to agree on pairs that are equal, unequal and refused: a
/// width of each pair becomes 0, 1, 2 and 6.
fn have_to_agree(pairs: &[[Filter; 2]]) {
    let calls: [Comparing; 2] = [bore::equivalent, equivalent::equivalent];
    for (k, [a, b]) in pairs.iter().enumerate() {
        for n in [0, 1, 2, 6] {
            let mut b = *b;
            b.rows.widths[k % 48] = n;
            let [library, rust] = calls.map(|call| {
                let mut same = 7;
                (call(a, &b, &mut same), same)
            });
            assert_eq!(library, rust, "comparing call, {a:?}, {b:?}");
        }
    }
}

/// The comparing call of the library beside the same work in Rust.
fn comparing() {
    let pairs = equivalent::shuffled_pairs(&COMPARED, PAIRS);
    have_to_agree(&pairs);
    let [a, b] = alternate([&mut || compare_all(&pairs, bore::equivalent), &mut || {
        compare_all(&pairs, equivalent::equivalent)
    }]);
    println!("Comparing call: the Rust version counts both lists of an axis in one loop.");
    println!();
    println!("| Comparing call | Library, µs | Rust, µs | Library / Rust |");
    println!("|---|---|---|---|");
    let name = "48 widths each way, shuffled, equal";
    println!("| {name} | {a:.3} | {b:.3} | {:.2} |", a / b);
}

fn main() {
    println!("Picture of 1,024 by 1,024 where no other is named. Times in milliseconds, the");
    println!("least of several runs in alternation. Both sides are built for release, and the");
    println!("buffers are warm: each side has run with its own before its time is taken.");
    println!();
    println!(
        "Aims: library / Rust within 1.05 for one pass and pass by pass, 1.1 for direct; \
         width 64 / width 3 within 1.3."
    );
    println!();
    same_algorithm();
    println!();
    conventional();
    println!();
    widths();
    println!();
    climbing();
    println!();
    comparing();
    println!();
    cards::cards();
    println!();
    gray_tables::same_size();
    println!();
    gray_tables::memory();
    println!();
    gray_tables::readings();
    println!();
    job_tables::files();
    println!();
    job_tables::program();
}
