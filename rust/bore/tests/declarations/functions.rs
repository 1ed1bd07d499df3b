//! The library's functions as their three places have them: exported by the
//! Rattle source, declared by the header, and declared by `raw.rs`.

use std::collections::BTreeMap;
use std::fs;
use std::path::{Path, PathBuf};

/// A function as it crosses: its parameters, each a name and a type, and its
/// return. A type is written as in Rattle; a slice is a pointer to its elements
/// and a length whose name has `_len` at its end.
#[derive(Clone, Debug, PartialEq, Eq)]
pub struct Function {
    pub parameters: Vec<(String, String)>,
    pub returns: String,
}

pub type Functions = BTreeMap<String, Function>;

pub const HEADER: &str = "include/bore.h";
pub const RAW: &str = "rust/bore/src/raw.rs";

/// Each type that crosses: as Rattle, `raw.rs` and the header write it.
pub const TYPES: [(&str, &str, &str); 10] = [
    ("u8", "u8", "uint8_t"),
    ("u64", "u64", "uint64_t"),
    ("i16", "i16", "int16_t"),
    ("i64", "i64", "int64_t"),
    ("usize", "usize", "size_t"),
    ("f64", "f64", "double"),
    ("[u8; 98]", "Filter", "bore_filter"),
    ("[u8; 49]", "Cascade", "bore_cascade"),
    ("[usize; 3]", "Words", "bore_state_words"),
    ("[usize; 3]", "Words", "bore_job_words"),
];

pub fn root() -> PathBuf {
    Path::new(env!("CARGO_MANIFEST_DIR")).join("../..")
}

pub fn text(path: &str) -> String {
    fs::read_to_string(root().join(path)).expect("the file can be read")
}

/// The text without its comments.
pub fn code(text: &str) -> String {
    let lines = text
        .lines()
        .map(|line| line.split("//").next().unwrap_or(""));
    let text = lines.collect::<Vec<_>>().join("\n");
    let mut parts = text.split("/*");
    let first = parts.next().unwrap_or("").to_string();
    parts.fold(first, |code, part| {
        code + part.split_once("*/").map_or("", |(_, rest)| rest)
    })
}

/// Each place where `mark` begins a function, as its name, the text between its
/// brackets, and the text behind them.
pub fn declared<'a>(text: &'a str, mark: &str) -> Vec<(&'a str, &'a str, &'a str)> {
    let parts = text.split(mark).skip(1);
    parts
        .map(|part| {
            let (name, rest) = part.split_once('(').expect("a name comes before (");
            let (list, behind) = rest.split_once(')').expect("parameters come before )");
            (name.trim(), list, behind)
        })
        .collect()
}

/// The parts between commas, with one space for any white space.
pub fn listed(list: &str) -> Vec<String> {
    let words = |part: &str| part.split_whitespace().collect::<Vec<_>>().join(" ");
    let parts = list.split(',').map(words);
    parts.filter(|part| !part.is_empty()).collect()
}

/// `name: type`, as Rattle and Rust write a parameter.
fn named(parameter: &str) -> (String, String) {
    let (name, kind) = parameter.split_once(": ").expect("a type comes after :");
    (name.to_string(), kind.to_string())
}

/// The return of a function in Rattle or Rust, by the text behind its brackets.
fn returned(behind: &str) -> String {
    let returns = behind.trim_start().strip_prefix("-> ");
    let words = returns.expect("there is a return").split_whitespace();
    let first = words.take(1).collect::<String>();
    first.trim_end_matches(';').to_string()
}

/// The parameters by which a parameter of the Rattle source crosses.
fn crossing((name, kind): (String, String)) -> Vec<(String, String)> {
    let slice = |start: &str| kind.strip_prefix(start)?.strip_suffix(']');
    for (start, pointer) in [("&[", "&"), ("&mut [", "&mut ")] {
        if let Some(element) = slice(start).filter(|inside| !inside.contains(';')) {
            let length = (format!("{name}_len"), "usize".to_string());
            return vec![(name, format!("{pointer}{element}")), length];
        }
    }
    vec![(name, kind)]
}

/// The exported functions of the Rattle source.
pub fn source() -> Functions {
    let mut functions = Functions::new();
    let mut paths = vec![root().join("crates")];
    while let Some(path) = paths.pop() {
        if path.is_dir() {
            let inside = fs::read_dir(&path).expect("the folder can be read");
            paths.extend(inside.map(|entry| entry.expect("an entry").path()));
            continue;
        }
        if path.extension().is_none_or(|end| end != "rt") {
            continue;
        }
        let source = fs::read_to_string(&path).expect("the source can be read");
        for (name, list, behind) in declared(&code(&source), "pub extern \"C\" fn ") {
            let parameters = listed(list).into_iter().map(|one| named(&one));
            let function = Function {
                parameters: parameters.flat_map(crossing).collect(),
                returns: returned(behind),
            };
            let before = functions.insert(name.to_string(), function);
            assert!(before.is_none(), "{name} is exported twice");
        }
    }
    functions
}

/// What a type of `raw.rs` is in Rattle.
fn from_rust(kind: &str) -> String {
    let kind = kind.replace("*const ", "&").replace("*mut ", "&mut ");
    let whole = kind.trim_start_matches("&mut ").trim_start_matches('&');
    let found = TYPES.iter().find(|(_, rust, _)| *rust == whole);
    let (rattle, _, _) = found.unwrap_or_else(|| panic!("{whole} is no type of TYPES"));
    let start = &kind[..kind.len() - whole.len()];
    format!("{start}{rattle}")
}

/// The functions that `raw.rs` declares.
pub fn rust(raw: &str) -> Functions {
    let raw = code(raw);
    let functions = declared(&raw, "fn bore_")
        .into_iter()
        .map(|(name, list, behind)| {
            let parameters = listed(list).into_iter().map(|one| {
                let (name, kind) = named(&one);
                (name, from_rust(&kind))
            });
            let function = Function {
                parameters: parameters.collect(),
                returns: returned(behind),
            };
            (format!("bore_{name}"), function)
        });
    functions.collect()
}

/// What a type of C is in Rattle.
fn from_c(kind: &str) -> &str {
    let found = TYPES.iter().find(|(_, _, c)| *c == kind);
    found
        .unwrap_or_else(|| panic!("{kind} is no type of TYPES"))
        .0
}

/// `const type *name`, `type *BORE_RESTRICT name` or `type name`, as C writes a
/// parameter. What is written through has BORE_RESTRICT, and nothing else has.
fn parameter_of_c(parameter: &str) -> (String, String) {
    let Some((kind, name)) = parameter.split_once('*') else {
        let (kind, name) = parameter.split_once(' ').expect("a type and a name");
        return (name.to_string(), from_c(kind).to_string());
    };
    let restricted = name.strip_prefix("BORE_RESTRICT ");
    let kind = kind.trim();
    match (kind.strip_prefix("const "), restricted) {
        (Some(kind), None) => (name.to_string(), format!("&{}", from_c(kind))),
        (None, Some(name)) => (name.to_string(), format!("&mut {}", from_c(kind))),
        _ => panic!("{parameter}: either const or BORE_RESTRICT"),
    }
}

/// The functions that the header declares; those with a body are its own.
pub fn header(header: &str) -> Functions {
    let header = code(header);
    let calls = declared(&header, "\nBORE_CALL ").into_iter();
    let functions = calls.map(|(name, list, behind)| {
        assert!(behind.starts_with(';'), "{name} is a declaration");
        let parameters = listed(list).iter().map(|one| parameter_of_c(one)).collect();
        let returns = "u8".to_string();
        (
            name.to_string(),
            Function {
                parameters,
                returns,
            },
        )
    });
    functions.collect()
}
