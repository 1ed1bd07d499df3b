//! The scale card beside the same work in safe Rust.

use crate::checks::weight_of;
use crate::equivalent::{list, shuffled_pairs};
use crate::timing::alternate;
use crate::work::{cascade, reach};
use crate::{COMPARED, PAIRS};
use bore::{Filter, Moments};
use std::hint::black_box;

/// The sum of (n times n - 1), divided by 12 once.
fn variance(list: &[u8]) -> f64 {
    let square = |&n: &u8| u64::from(n) * u64::from(n) - 1;
    let squares: u64 = list.iter().map(square).sum();
    squares as f64 / 12.0
}

fn card(filter: &Filter) -> Result<Moments, u8> {
    let [rows, columns] = [list(&filter.rows)?, list(&filter.columns)?];
    Ok(Moments {
        gain: weight_of([rows, columns])?,
        row_order: reach(rows),
        column_order: reach(columns),
        row_variance: variance(rows),
        column_variance: variance(columns),
    })
}

/// The call in the library's form.
fn in_rust(filter: &Filter, moments: &mut Moments) -> u8 {
    match card(filter) {
        Err(number) => number,
        Ok(card) => {
            *moments = card;
            0
        }
    }
}

/// The call of the library, or that in Rust.
type Call = fn(&Filter, &mut Moments) -> u8;

fn all(filters: &[Filter], call: Call) {
    for filter in filters {
        let mut moments = Moments::default();
        let number = call(black_box(filter), &mut moments);
        assert_eq!(number, 0, "the recipe is accepted");
        black_box(moments);
    }
}

/// Both calls have to agree, also where a width becomes 0, 1, 200 or 255.
fn have_to_agree(filters: &[Filter]) {
    for (k, filter) in filters.iter().enumerate() {
        for n in [0, 1, 200, 255] {
            let mut other = *filter;
            other.columns.widths[k % 48] = n;
            for filter in [filter, &other] {
                let [library, rust] = [bore::moments, in_rust].map(|call: Call| {
                    let mut moments = Moments::default();
                    (call(filter, &mut moments), moments)
                });
                assert_eq!(library, rust, "scale card, {filter:?}");
            }
        }
    }
}

/// The card of rows 2,2 and of full lists, as many in a run as the comparing
/// call gets pairs, so that the milliseconds are microseconds of one.
pub fn cards() {
    let short = Filter {
        rows: cascade(&[2, 2]),
        columns: cascade(&[]),
    };
    let full = shuffled_pairs(&COMPARED, PAIRS)
        .into_iter()
        .map(|pair| pair[0]);
    println!("| Scale card | Library, µs | Rust, µs | Library / Rust |");
    println!("|---|---|---|---|");
    for (name, filters) in [
        ("rows 2,2", vec![short; PAIRS]),
        ("48 widths each way, shuffled", full.collect()),
    ] {
        have_to_agree(&filters);
        let [a, b] = alternate([&mut || all(&filters, bore::moments), &mut || {
            all(&filters, in_rust)
        }]);
        println!("| {name} | {a:.3} | {b:.3} | {:.2} |", a / b);
    }
}
