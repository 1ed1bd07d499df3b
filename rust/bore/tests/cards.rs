//! The scale card beside cards that are stored in cards.txt, bit by bit: each
//! width alone, and recipes of several widths. And the archive has no table of
//! n times n - 1 to take them from.

mod common;

use bore::Filter;
use common::{accepted, filter};
use std::fs;
use std::ops::RangeInclusive;
use std::path::Path;

/// A line has the row widths, the column widths, the weight, both reaches, and
/// the bits of both variances; `-` is an empty list.
const STORED: &str = include_str!("cards.txt");

/// The weight, the reaches, and the bits of the variances.
type Card = [u64; 5];

fn list(text: &str) -> Vec<u8> {
    let words = text.split(',').filter(|&word| word != "-");
    words.map(|n| n.parse().expect("a width")).collect()
}

fn line(text: &str) -> (Vec<u8>, Vec<u8>, Card) {
    let words: Vec<&str> = text.split(' ').collect();
    let [rows, columns, weight, rx, ry, along, down] = words[..] else {
        panic!("seven words: {text}");
    };
    let [weight, rx, ry] = [weight, rx, ry].map(|word| word.parse().expect("a number"));
    let [along, down] = [along, down].map(|word| u64::from_str_radix(word, 16).expect("bits"));
    (list(rows), list(columns), [weight, rx, ry, along, down])
}

fn card(filter: &Filter) -> Card {
    let m = accepted::moments(filter);
    let [along, down] = [m.row_variance, m.column_variance].map(f64::to_bits);
    [
        m.gain,
        m.row_order as u64,
        m.column_order as u64,
        along,
        down,
    ]
}

/// Each card as it is stored, and with the axes exchanged. The first 255 are
/// those of the single widths.
#[test]
fn cards_keep_their_bits() {
    let mut alone = 1..=255;
    for text in STORED.lines() {
        let (rows, columns, stored) = line(text);
        if let Some(n) = alone.next() {
            assert_eq!((&rows[..], &columns[..]), (&[n][..], &[][..]));
        }
        assert_eq!(card(&filter(&rows, &columns)), stored, "{text}");
        let [weight, rx, ry, along, down] = stored;
        let turned = [weight, ry, rx, down, along];
        assert_eq!(card(&filter(&columns, &rows)), turned, "{text}, turned");
    }
    assert_eq!(alone.next(), None, "every width is stored");
}

/// A table of n times n - 1: entries of so many bytes, low byte first.
fn table(widths: RangeInclusive<u64>, size: usize) -> Vec<u8> {
    let entry = |n: u64| (n * n - 1).to_le_bytes().into_iter().take(size);
    widths.flat_map(entry).collect()
}

/// So many successive entries are taken for a table, which a compiler may have
/// cut into constants of 8 bytes.
const RUN: u64 = 4;

/// Where successive entries of such a table stand in these bytes, of 2, 4 or 8
/// bytes each.
fn entries(bytes: &[u8]) -> Option<usize> {
    let mut runs = (1..=256 - RUN).flat_map(|n| [2, 4, 8].map(|size| (n, size)));
    runs.find_map(|(n, size)| {
        let run = table(n..=n + RUN - 1, size);
        bytes.windows(run.len()).position(|part| part == run)
    })
}

#[test]
fn no_table_in_the_archive() {
    let path = Path::new(env!("CARGO_MANIFEST_DIR")).join("../../target/staticlib/libbore.a");
    let archive = fs::read(path).expect("the archive can be read");
    assert_eq!(entries(&archive), None);
}

/// A table is found in whole and in part, wherever it begins.
#[test]
fn a_table_would_be_found() {
    let first = [0xA5, 0, 0, 3, 0, 8, 0, 15, 0, 0xA5];
    let last = [0xA5, 0x0F, 0xF8, 0x08, 0xFA, 0x03, 0xFC, 0x00, 0xFE];
    assert_eq!([&first[..], &last].map(entries), [Some(1); 2]);
    for size in [2, 4, 8] {
        for widths in [1..=255, 2..=5, 252..=255] {
            let bytes = [vec![0xA5; 13], table(widths, size), vec![0xA5]].concat();
            assert_eq!(entries(&bytes), Some(13), "{size} bytes each");
        }
    }
}
