//! The declarations of the library's functions, in `include/bore.h` and in
//! `rust/bore/src/raw.rs`, beside the exported functions of the Rattle source:
//! the same functions, each with the same parameters in the same order, by name
//! and by type, and the same return. `told` has what the header tells a compiler
//! and a reader beside that, `words` the words of the numbers in the README, and
//! `compiled` the header as compilers read it, with its words.

mod compiled;
mod functions;
mod told;
mod words;

use functions::{code, declared, header, rust, source, text, Functions, HEADER, RAW};
use std::collections::BTreeMap;

/// The functions that the header has for itself.
const OWN: [&str; 3] = ["bore_refusal_text", "bore_set_cascade", "bore_set_filter"];

/// The first difference between two sets of functions.
fn difference(source: &Functions, other: &Functions) -> Option<String> {
    for name in source.keys().chain(other.keys()) {
        let [one, two] = [source, other].map(|functions| functions.get(name));
        if one != two {
            return Some(format!("{name}: in the source {one:?}, declared {two:?}"));
        }
    }
    None
}

#[test]
fn the_declarations_are_those_of_the_source() {
    let source = source();
    assert!(source.len() >= 22, "{} functions", source.len());
    assert_eq!(
        difference(&source, &header(&text(HEADER))),
        None,
        "{HEADER}"
    );
    assert_eq!(difference(&source, &rust(&text(RAW))), None, "{RAW}");
}

/// The return of every declaration of the header is that of BORE_CALL.
#[test]
fn a_call_of_the_header_returns_a_byte() {
    let text = text(HEADER);
    let lines = text
        .lines()
        .filter(|line| line.contains("define BORE_CALL "));
    let ends: Vec<bool> = lines.map(|line| line.ends_with(" uint8_t")).collect();
    assert_eq!(ends, [true, true]);
}

/// A declaration that differs in one place is seen.
#[test]
fn a_changed_declaration_is_seen() {
    let (source, text_of_c, text_of_rust) = (source(), text(HEADER), text(RAW));
    for (old, new) in [
        ("size_t width, size_t height", "size_t height, size_t width"),
        ("size_t column, size_t row", "size_t row, size_t column"),
        ("size_t level, size_t width", "size_t width, size_t level"),
        ("int16_t *BORE_RESTRICT out", "uint8_t *BORE_RESTRICT out"),
        (
            "int64_t *BORE_RESTRICT leftovers",
            "uint64_t *BORE_RESTRICT leftovers",
        ),
        ("int64_t *BORE_RESTRICT leftover)", "int64_t leftover)"),
        ("uint64_t *BORE_RESTRICT out", "const uint64_t *out"),
        ("const bore_cascade *list", "const bore_filter *list"),
        (
            "bore_job_words *BORE_RESTRICT words",
            "size_t *BORE_RESTRICT words",
        ),
        (", size_t out_len", ""),
        ("BORE_CALL bore_drain(", "BORE_CALL bore_drained("),
    ] {
        let changed = text_of_c.replacen(old, new, 1);
        assert_ne!(changed, text_of_c, "{old}");
        assert_ne!(difference(&source, &header(&changed)), None, "{old}");
    }
    for (old, new) in [
        (
            "width: usize,\n        height: usize",
            "height: usize,\n        width: usize",
        ),
        (
            "level: usize,\n        width: usize",
            "width: usize,\n        level: usize",
        ),
        ("out: *mut i16", "out: *mut u8"),
        ("leftovers: *mut i64", "leftovers: *mut u64"),
        ("sums: *const u64", "sums: *mut u64"),
        ("list: &Cascade", "list: &Filter"),
        ("words: *mut Words", "words: *mut usize"),
        ("same: &mut u8) -> u8", "same: &mut u8) -> u16"),
        ("fn bore_drain(", "fn bore_drained("),
    ] {
        let changed = text_of_rust.replacen(old, new, 1);
        assert_ne!(changed, text_of_rust, "{old}");
        assert_ne!(difference(&source, &rust(&changed)), None, "{old}");
    }
}

/// Whatever stands before it and between: every name with a bracket after it is
/// a function of the source, declared once, or one of the header's own.
#[test]
fn the_header_names_no_other_function() {
    let header = code(&text(HEADER));
    let source = source();
    let mut found = BTreeMap::new();
    let word = |c: char| c.is_ascii_alphanumeric() || c == '_';
    for (at, _) in header.match_indices("bore_") {
        let part = &header[at..];
        let name = part.split(|c| !word(c)).next().unwrap_or("");
        let called = part[name.len()..].trim_start().starts_with('(');
        if called && !header[..at].ends_with(word) && !OWN.contains(&name) {
            *found.entry(name.to_string()).or_insert(0) += 1;
        }
    }
    let once: BTreeMap<String, i32> = source.into_keys().map(|name| (name, 1)).collect();
    assert_eq!(found, once);
}

/// A function of `raw.rs` is declared safe where it has no pointer, and only
/// there; its name in the library is its own.
#[test]
fn a_safe_function_has_no_pointer() {
    let raw = code(&text(RAW));
    for (keyword, pointers) in [("pub safe fn bore_", false), ("pub fn bore_", true)] {
        for (name, list, _) in declared(&raw, keyword) {
            assert_eq!(list.contains('*'), pointers, "bore_{name}");
        }
    }
    let ways = raw.matches("extern \"").count();
    assert_eq!(ways, raw.matches("unsafe extern \"C\" {").count());
    assert!(!raw.contains("link_name"));
}
