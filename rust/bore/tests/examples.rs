//! The examples `compare` and `recipe`: what they print for the words of a
//! command, what they say is wrong, and the status with which an example ends.
//! `make_job` has a file of its own.

// Each example has the modules that it shares with others as its own.
#![allow(clippy::duplicate_mod)]

#[allow(dead_code)]
#[path = "../examples/compare.rs"]
mod compare;
#[allow(dead_code)]
#[path = "../examples/outcome/mod.rs"]
mod outcome;
#[allow(dead_code)]
#[path = "../examples/recipe.rs"]
mod recipe;

use outcome::Outcome;
use std::process::ExitCode;

/// The outcome for a command with single spaces between its words.
fn by_words(example: fn(&[String]) -> Outcome, command: &str) -> Outcome {
    let words: Vec<String> = command.split(' ').map(str::to_string).collect();
    example(&words)
}

fn compare(command: &str) -> Outcome {
    by_words(compare::compare, command)
}

fn recipe(command: &str) -> Outcome {
    by_words(recipe::recipe, command)
}

/// A list of this many equal widths, as it is typed.
fn equal_widths(n: u8, times: usize) -> String {
    vec![n.to_string(); times].join(",")
}

/// Lists that are refused, as they are typed, and what is said of each.
fn refused_lists() -> Vec<(String, &'static str)> {
    let too_long = "refused 1: a list is longer than 48 widths";
    vec![
        (equal_widths(1, 49), too_long),
        (equal_widths(1, 255), too_long),
        (equal_widths(0, 256), too_long),
        (equal_widths(255, 304), too_long),
        (equal_widths(2, 1000), too_long),
        ("2,0".to_string(), "refused 2: a width is 0"),
        ("255,3".to_string(), "refused 3: a reach is above 255"),
        (equal_widths(2, 45), "refused 4: the weight is above 2^44"),
    ]
}

#[test]
fn recipes_are_compared() {
    for (command, answer) in [
        ("2,6,6 - 3,3,8 -", "not equal"),
        ("- - - -", "equal"),
        ("1,1 - - 1", "equal"),
        ("2,3 4 3,1,2 4,1", "equal"),
        ("2,3 - - 2,3", "not equal"),
        ("255,2 2 2,255 2", "equal"),
    ] {
        assert_eq!(compare(command), Ok(answer.to_string()), "{command}");
    }
    let longest = equal_widths(1, 48);
    let found = compare(&format!("{longest} {longest} - -"));
    assert_eq!(found, Ok("equal".to_string()));
}

#[test]
fn refused_recipes_are_not_compared() {
    for (list, text) in refused_lists() {
        for command in [
            format!("{list} - - -"),
            format!("- {list} - -"),
            format!("- - {list} -"),
            format!("- - - {list}"),
        ] {
            assert_eq!(compare(&command), Err(text.to_string()), "{command}");
        }
        // A refusal of the first recipe comes before one of the second.
        for (other, other_text) in refused_lists() {
            let found = compare(&format!("{list} 2 - {other}"));
            assert_eq!(found, Err(text.to_string()), "{list}, {other}");
            let found = compare(&format!("- {other} {list} 2"));
            assert_eq!(found, Err(other_text.to_string()), "{other}, {list}");
        }
    }
}

#[test]
fn recipes_are_described() {
    let lines = [
        "weight 36",
        "reaches 2 4",
        "variances 0.5 1.3333333333333333",
        "R 1 2 1",
        "C 1 2 3 2 1",
        "grown size 642 484",
        "cells 3854",
    ];
    assert_eq!(recipe("2,2 3,3 640 480"), Ok(lines.join("\n")));
    let lines = [
        "weight 1",
        "reaches 0 0",
        "variances 0 0",
        "R 1",
        "C 1",
        "grown size 1 1024",
        "cells 0",
    ];
    assert_eq!(recipe("- 1 1 1024"), Ok(lines.join("\n")));
}

#[test]
fn refused_recipes_are_not_described() {
    let side = "refused 5: a side of the picture is 0 or above 1024";
    for sides in ["0 1", "1 0", "1025 1", "1 1025", "18446744073709551615 1"] {
        let found = recipe(&format!("2 2 {sides}"));
        assert_eq!(found, Err(side.to_string()), "{sides}");
    }
    for (list, text) in refused_lists() {
        for command in [format!("{list} - 0 1"), format!("2 {list} 1 1")] {
            assert_eq!(recipe(&command), Err(text.to_string()), "{command}");
        }
    }
}

/// Too few or too many words, and words that are no number, whatever else would
/// be refused.
#[test]
fn wrong_usage() {
    let usage = |outcome: Outcome| {
        let text = outcome.expect_err("the usage is wrong");
        assert!(text.starts_with("usage: "), "{text}");
    };
    usage(compare::compare(&[]));
    usage(recipe::recipe(&[]));
    let long = equal_widths(1, 49);
    for list in ["", ",", "2,", "2,,2", "256", "-1", "--", "2.5", "x", "2;2"] {
        usage(compare(&format!("{list} - - -")));
        usage(compare(&format!("{long} - - {list}")));
        usage(recipe(&format!("{list} - 1 1")));
        usage(recipe(&format!("{long} {list} 1 1")));
    }
    for command in ["2", "2 2", "2 2 2", "2 2 2 2 2"] {
        usage(compare(command));
        usage(recipe(command));
    }
    for sides in ["-1 1", "1 x", "1.5 1", "1 ", "18446744073709551616 1"] {
        usage(recipe(&format!("{long} - {sides}")));
    }
}

#[test]
fn the_status() {
    let accepted = outcome::end(Ok("a text".to_string()));
    assert_eq!(accepted, ExitCode::SUCCESS);
    let refused = outcome::end(Err(outcome::refused(5)));
    assert_ne!(refused, ExitCode::SUCCESS);
}
