//! The tables of rounding, the same-size blur, the difference and the readings.

use crate::gray_work::{Blur, Difference, Rounding};
use crate::timing::alternate;
use crate::work::Work;
use crate::{greys, RECIPES, SIDE};

/// The pairs of the differences: name, and the widths of each recipe both ways.
/// The product of the weights of the first pair has a single bit set.
const DIFFERENCES: [(&str, &[u8], &[u8]); 2] = [
    ("5 by 5 less 9 by 9 binomial", &[2; 4], &[2; 8]),
    (
        "three boxes of 5 less three of 15 each way",
        &[5, 5, 5],
        &[15, 15, 15],
    ),
];

/// Runs both sides, whose results have to agree, and prints the times of a call.
/// Calls on small pictures are repeated in one run, and their times have more
/// digits.
fn line<W: Clone>(
    [name, call]: [&str; 2],
    calls: usize,
    work: W,
    [by_library, by_rust]: [fn(&mut W); 2],
    agree: fn(&W, &W) -> bool,
) {
    let mut library = work.clone();
    let mut rust = work;
    by_library(&mut library);
    by_rust(&mut rust);
    assert!(agree(&library, &rust), "{call}, {name}");
    let repeat = |side: fn(&mut W), work: &mut W| (0..calls).for_each(|_| side(work));
    let times = alternate([&mut || repeat(by_library, &mut library), &mut || {
        repeat(by_rust, &mut rust)
    }]);
    let [a, b] = times.map(|time| time / calls as f64);
    let digits = if calls > 1 { 4 } else { 2 };
    println!(
        "| {name} | {call} | {a:.digits$} | {b:.digits$} | {:.2} |",
        a / b
    );
}

/// The side of a small picture, most of which is rim, and its blurs in one run.
const SMALL_SIDE: usize = 40;
const SMALL_BLURS: usize = 100;

/// The blurs of a picture of this side, by each recipe.
fn blurs(call: &str, side: usize, calls: usize) {
    for (name, rows, columns) in RECIPES {
        let work = Blur::new(rows, columns, side);
        let agree = |a: &Blur, b: &Blur| a.out == b.out && a.leftovers == b.leftovers;
        let sides = [Blur::by_library, greys::blur];
        line([name, call], calls, work, sides, agree);
    }
}

/// The library beside the same method in Rust.
pub fn same_size() {
    println!("| Recipe | Call | Library, ms | Rust, ms | Library / Rust |");
    println!("|---|---|---|---|---|");
    for (name, rows, columns) in RECIPES {
        let work = Rounding::new(rows, columns, SIDE);
        let agree = |a: &Rounding, b: &Rounding| a.out == b.out && a.leftovers == b.leftovers;
        let sides = [Rounding::by_library, greys::round_row];
        line([name, "rounding"], 1, work, sides, agree);
    }
    blurs("same-size blur", SIDE, 1);
    blurs("same-size blur of 40 by 40", SMALL_SIDE, SMALL_BLURS);
    for (name, a, b) in DIFFERENCES {
        let work = Difference::new(a, b, SIDE);
        let agree = |a: &Difference, b: &Difference| a.out == b.out;
        let sides = [Difference::by_library, greys::difference];
        line([name, "difference"], 1, work, sides, agree);
    }
}

/// What stands in a cell that is not touched.
const MARK: u64 = 0xA5A5_A5A5_A5A5_A5A5;

/// The bytes that the blur writes: the cells of the one pass, one row of sums, the
/// inside weights along both axes, the reciprocals of a row, and both outputs. No
/// more cells may have changed than those of the one pass and a row.
fn blur_bytes(work: &mut Blur) -> usize {
    work.cells.fill(MARK);
    work.by_library();
    let changed = work.cells.iter().filter(|&&cell| cell != MARK).count();
    let sums = work.recipe.needed + work.recipe.full_width;
    assert!(changed <= sums, "{changed} cells of the blur have changed");
    8 * (sums + 3 * work.side) + work.out.len() + 8 * work.leftovers.len()
}

/// The blur beside pass by pass: times, and the bytes that are written.
pub fn memory() {
    println!("Bytes written: by the blur the cells of the one pass, one row of sums, the inside");
    println!("weights along both axes, the reciprocals of a row and both outputs, by pass by pass");
    println!("two buffers of the grown size.");
    println!();
    println!("| Recipe | Blur, ms | Pass by pass, ms | Blur, bytes | Pass by pass, bytes |");
    println!("|---|---|---|---|---|");
    for (name, rows, columns) in RECIPES {
        let mut blur = Blur::new(rows, columns, SIDE);
        let mut passes = Work::new(rows, columns, SIDE);
        let bytes = [blur_bytes(&mut blur), 16 * blur.recipe.full_size];
        let [a, b] = alternate([&mut || blur.by_library(), &mut || passes.passes()]);
        println!("| {name} | {a:.2} | {b:.2} | {} | {} |", bytes[0], bytes[1]);
    }
}

/// The windows of the readings: name, and the widths both ways.
const WINDOWS: [(&str, &[u8]); 5] = [
    ("1 by 1", &[]),
    ("5 by 5", &[2; 4]),
    ("15 by 15", &[15]),
    ("64 by 64", &[64]),
    ("256 by 256", &[255, 2]),
];

/// The readings of one run. The milliseconds of a thousand are the microseconds
/// of one.
const READINGS: usize = 1000;

fn read_all(work: &Blur, gray: u8) {
    for _ in 0..READINGS {
        assert_eq!(work.middle(), gray, "a reading");
    }
}

/// One reading in the middle of pictures of several sides. The grey has to be
/// that of the blur in Rust.
pub fn readings() {
    println!("One reading in the middle of a picture, which cuts a window larger than itself.");
    println!();
    println!("| Window | Side 64, µs | Side 256, µs | Side 1,024, µs |");
    println!("|---|---|---|---|");
    for (name, list) in WINDOWS {
        let [mut small, mut middle, mut large] = [64, 256, 1024].map(|side| {
            let mut work = Blur::new(list, list, side);
            greys::blur(&mut work);
            let gray = work.out[side / 2 * side + side / 2];
            move || read_all(&work, gray)
        });
        let [a, b, c] = alternate([&mut small, &mut middle, &mut large]);
        println!("| {name} | {a:.3} | {b:.3} | {c:.3} |");
    }
}
