//! The header as compilers read it, which is not as its text alone would say: it
//! has macros, conditions and types of its own.

use crate::functions::{code, listed, root, source, text, Function, HEADER, TYPES};
use std::fs;
use std::path::Path;
use std::process::{self, Command};

/// The names of the numbers, from 0 on.
const NAMES: [&str; 17] = [
    "BORE_ACCEPTED",
    "BORE_LIST_TOO_LONG",
    "BORE_ZERO_WIDTH",
    "BORE_REACH_TOO_FAR",
    "BORE_WEIGHT_TOO_LARGE",
    "BORE_BAD_SIDE",
    "BORE_OTHER_PIXELS",
    "BORE_OTHER_OUTPUT",
    "BORE_TOO_FEW_CELLS",
    "BORE_BAD_STATE",
    "BORE_ROW_NOT_DUE",
    "BORE_SUM_TOO_LARGE",
    "BORE_PARITY_DIFFERS",
    "BORE_PRODUCT_TOO_LARGE",
    "BORE_BAD_JOB",
    "BORE_OUTSIDE",
    "BORE_BAD_LEVEL",
];

/// The fields of the structs, each with the declaration of a pointer to it.
const FIELDS: [(&str, &str); 14] = [
    ("uint8_t *{}", "state.filter.rows.count"),
    ("uint8_t (*{})[48]", "state.filter.rows.widths"),
    ("bore_cascade *{}", "state.filter.rows"),
    ("bore_cascade *{}", "state.filter.columns"),
    ("bore_filter *{}", "state.filter"),
    ("bore_state_words *{}", "state.words"),
    ("size_t *{}", "state.words.width"),
    ("size_t *{}", "state.words.height"),
    ("size_t *{}", "state.words.emitted"),
    ("bore_filter *{}", "job.filter"),
    ("bore_job_words *{}", "job.words"),
    ("size_t *{}", "job.words.width"),
    ("size_t *{}", "job.words.height"),
    ("size_t *{}", "job.words.offset"),
];

/// What a parameter of this type is in C. Of the two structs with three words, a
/// function that has a state takes the state's.
fn in_c(function: &Function, kind: &str) -> String {
    let has_state = function.parameters.iter().any(|(name, _)| name == "state");
    let other = match has_state {
        true => "bore_job_words",
        false => "bore_state_words",
    };
    let whole = kind.trim_start_matches("&mut ").trim_start_matches('&');
    let mut types = TYPES.iter().filter(|(_, _, c)| *c != other);
    let found = types.find(|(rattle, _, _)| *rattle == whole);
    let (_, _, c) = found.unwrap_or_else(|| panic!("{whole} is no type of TYPES"));
    match &kind[..kind.len() - whole.len()] {
        "" => c.to_string(),
        "&" => format!("const {c} *"),
        _ => format!("{c} *"),
    }
}

/// A pointer of its type to every function of the source.
fn function_pointers() -> Vec<String> {
    let functions = source().into_iter().map(|(name, function)| {
        assert_eq!(function.returns, "u8", "{name}");
        let kinds = function.parameters.iter();
        let kinds: Vec<String> = kinds.map(|(_, kind)| in_c(&function, kind)).collect();
        format!("uint8_t (*of_{name})({}) = {name};", kinds.join(", "))
    });
    functions.collect()
}

/// A program for C and C++ that includes the header twice, takes every function
/// of the source and every field of a struct by a pointer of its type, and prints
/// the numbers of all names and the words of all numbers.
fn program() -> String {
    let mut lines = vec!["#include \"bore.h\"\n".repeat(2) + "#include <stdio.h>"];
    lines.extend(function_pointers());
    lines.push("bore_state state; bore_job job;".to_string());
    for (at, (pointer, field)) in FIELDS.iter().enumerate() {
        let pointer = pointer.replace("{}", &format!("field{at}"));
        lines.push(format!("{pointer} = &{field};"));
    }
    lines.push("int main(void)\n{\n    int n;".to_string());
    let numbers = NAMES.map(|name| format!("    printf(\"%d\\n\", (int){name});"));
    lines.extend(numbers);
    lines.push("    printf(\"%d %d\\n\", BORE_MOST_WIDTHS, BORE_MOST_SIDE);".to_string());
    lines.push("    for (n = 0; n < 256; n++)".to_string());
    lines.push("        puts(bore_refusal_text((uint8_t)n));".to_string());
    lines.push("    return 0;\n}\n".to_string());
    lines.join("\n")
}

/// The header has these names for numbers, and no other.
#[test]
fn the_numbers_have_these_names() {
    let code = code(&text(HEADER));
    let (_, list) = code.split_once("enum bore_refusal {").expect("the numbers");
    let (list, _) = list.split_once("};").expect("the numbers end");
    let names = listed(list).into_iter();
    let names: Vec<String> = names.map(|one| one.replace('=', " ")).collect();
    let names: Vec<_> = names.iter().map(|one| one.split(' ').next()).collect();
    assert_eq!(names, NAMES.map(Some));
}

#[test]
fn a_compiler_reads_the_same() {
    let numbers = (0..17).map(|number| number.to_string());
    let words = (0..=255).map(|number| bore::refusal_text(number).to_string());
    let lines = numbers.chain(["48 1024".to_string()]).chain(words);
    let expected = lines.map(|line| line + "\n").collect::<String>();
    let folder = Path::new(env!("CARGO_TARGET_TMPDIR")).join(format!("header{}", process::id()));
    fs::create_dir_all(&folder).expect("a folder can be made");
    let (file, built) = (folder.join("header.c"), folder.join("header"));
    fs::write(&file, program()).expect("the program can be written");
    for (compiler, options) in [
        ("gcc", ["-std=c99", "-xc"]),
        ("g++", ["-std=c++11", "-xc++"]),
    ] {
        let mut command = Command::new(compiler);
        command.args(["-Wall", "-Wextra", "-Werror", "-pedantic"]);
        command.args(options).arg("-I").arg(root().join("include"));
        command.arg(&file).arg("-xnone");
        command.arg(root().join("target/staticlib/libbore.a"));
        let status = command.arg("-o").arg(&built).status();
        assert!(status.expect("there is a compiler").success(), "{compiler}");
        let output = Command::new(&built).output().expect("the program runs");
        assert_eq!(String::from_utf8_lossy(&output.stdout), expected);
    }
    fs::remove_dir_all(folder).expect("the folder can be removed");
}
