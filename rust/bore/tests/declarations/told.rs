//! What the header tells a compiler and a reader of each call: which arguments
//! are never null, which are slices and how they are used, the order of the
//! refusals, and what may not overlap.

use crate::functions::{code, declared, header, listed, text, Function, HEADER};

/// What the header tells the compiler of a function: which parameters are never
/// null, and which are a slice and its length. What is written is not read
/// before, but for the cells with a state that is lent.
fn told(function: &Function) -> (Vec<usize>, Vec<(String, usize)>) {
    let (mut nonnull, mut slices) = (Vec::new(), Vec::new());
    let parameters = &function.parameters;
    let goes_on = parameters.contains(&("state".to_string(), "&[u8; 98]".to_string()));
    for (at, (name, kind)) in parameters.iter().enumerate() {
        let length = format!("{name}_len");
        if parameters
            .get(at + 1)
            .is_some_and(|(next, _)| *next == length)
        {
            let way = match kind.starts_with("&mut ") {
                false => "READS",
                true if goes_on && name == "cells" => "UPDATES",
                true => "WRITES",
            };
            slices.push((way.to_string(), at + 1));
        } else if kind.starts_with('&') {
            nonnull.push(at + 1);
        }
    }
    (nonnull, slices)
}

/// The same by the line before a declaration. A slice's length is the argument
/// after it.
fn attributes(line: &str) -> (Vec<usize>, Vec<(String, usize)>) {
    let (mut nonnull, mut slices) = (Vec::new(), Vec::new());
    for (name, list, _) in declared(line, "BORE_") {
        let numbers = listed(list);
        let numbers: Vec<usize> = numbers
            .iter()
            .map(|n| n.parse().expect("a number"))
            .collect();
        match (name, numbers.as_slice()) {
            ("NONNULL", _) => nonnull.extend(numbers),
            ("READS" | "WRITES" | "UPDATES", [slice, length]) if *length == slice + 1 => {
                slices.push((name.to_string(), *slice))
            }
            _ => panic!("{line}: BORE_{name}"),
        }
    }
    (nonnull, slices)
}

#[test]
fn the_compiler_is_told_of_every_pointer() {
    let header_code = code(&text(HEADER));
    let declared = header(&text(HEADER));
    let parts: Vec<&str> = header_code.split("\nBORE_CALL ").collect();
    assert_eq!(parts.len(), declared.len() + 1);
    for pair in parts.windows(2) {
        let line = pair[0].lines().next_back().unwrap_or("");
        let name = pair[1].split('(').next().unwrap_or("");
        assert_eq!(attributes(line), told(&declared[name]), "{name}");
    }
}

/// The parameters that a comment says overlap nothing else.
fn apart(comment: &str) -> Vec<String> {
    let line = comment
        .lines()
        .find_map(|line| line.strip_prefix(" * Overlaps nothing: "));
    let names = line.map_or("", |line| line.split(['.', '*']).next().unwrap_or(""));
    listed(names)
}

/// The comment before the declaration of a call.
fn comment_of<'a>(text: &'a str, name: &str) -> &'a str {
    let declaration = format!("\nBORE_CALL {name}(");
    let (before, _) = text.split_once(&declaration).expect("it is declared");
    let (_, comment) = before.rsplit_once("/* ").expect("a comment comes before");
    comment
}

/// The comment before each declaration names all that the call can write, and
/// has the other parts.
#[test]
fn a_comment_stands_at_every_call() {
    let text = text(HEADER);
    for (name, function) in &header(&text) {
        let comment = comment_of(&text, name);
        let written = function.parameters.iter();
        let written = written.filter(|(_, kind)| kind.starts_with("&mut "));
        let written: Vec<String> = written.map(|(name, _)| name.clone()).collect();
        assert_eq!(apart(comment), written, "{name}");
        for part in ["Takes", "efuses: ", " * Writes: "] {
            assert!(comment.contains(part), "{name}: {part}");
        }
    }
}

/// The numbers by which each call refuses, in the order of documents 01 and 02.
/// Both other readings refuse as that of the grey does.
const ORDERS: [(&str, &[u8]); 20] = [
    ("bore_check", &[1, 2, 3, 4]),
    ("bore_kernel", &[1, 2, 3, 4, 7]),
    ("bore_full_size", &[1, 2, 3, 4, 5]),
    ("bore_stream_cells", &[1, 2, 3, 4, 5]),
    ("bore_moments", &[1, 2, 3, 4]),
    ("bore_equivalent", &[1, 2, 3, 4, 1, 2, 3, 4]),
    ("bore_direct", &[1, 2, 3, 4, 5, 6, 7]),
    ("bore_passes", &[1, 2, 3, 4, 5, 6, 7, 8]),
    ("bore_ladder_rows", &[16, 5, 6, 7, 8]),
    ("bore_ladder_both", &[16, 4, 5, 6, 7, 8]),
    ("bore_start", &[1, 2, 3, 4, 5, 8]),
    ("bore_push", &[9, 10, 6, 7, 8]),
    ("bore_drain", &[9, 10, 7, 8]),
    ("bore_round", &[1, 2, 3, 4, 7, 11]),
    ("bore_blur", &[1, 2, 3, 4, 5, 6, 7, 8]),
    (
        "bore_difference",
        &[1, 2, 3, 4, 1, 2, 3, 4, 5, 6, 7, 8, 12, 13],
    ),
    ("bore_sample_gray", &[1, 2, 3, 4, 5, 6, 15]),
    ("bore_read_job", &[14, 1, 14, 2, 3, 4, 5, 14]),
    ("bore_job_size", &[1, 2, 3, 4, 5]),
    ("bore_write_job", &[1, 2, 3, 4, 5, 6, 7]),
];

/// The numbers with which the parts of a comment's refusals begin.
fn refusals(comment: &str) -> Vec<u8> {
    let (_, rest) = comment.split_once(" * Refuses: ").expect("it can refuse");
    let (list, _) = rest
        .split_once(" * Writes: ")
        .expect("what it writes comes next");
    let list = list.replace("\n * ", " ");
    let numbers = list.split(';').flat_map(|part| {
        let words = part
            .split(", ")
            .map(|word| word.trim().split([' ', '.']).next());
        words.map_while(|word| word?.parse().ok())
    });
    numbers.collect()
}

#[test]
fn the_comments_have_the_order_of_the_refusals() {
    let text = text(HEADER);
    let calls = header(&text);
    let as_others = calls
        .keys()
        .filter(|name| comment_of(&text, name).contains("and refuses: as "));
    assert!(as_others.eq(["bore_sample_mean", "bore_sample_sum"]));
    assert_eq!(ORDERS.len() + 2, calls.len());
    for (name, numbers) in ORDERS {
        assert_eq!(refusals(comment_of(&text, name)), numbers, "{name}");
    }
}
