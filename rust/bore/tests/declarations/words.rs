//! The words of the numbers in the README, beside those of the wrapper. Those of
//! the header are compared as it is compiled.

use crate::functions::text;

/// The rows of the README's table of numbers.
fn words_of_readme() -> Vec<(u8, String)> {
    let text = text("README.md");
    let (_, part) = text.split_once("\n## Refusals\n").expect("the numbers");
    let part = part.split("\n## ").next().unwrap_or("");
    let rows = part.lines().filter_map(|line| {
        let (number, words) = line
            .strip_prefix("| ")?
            .strip_suffix(" |")?
            .split_once(" | ")?;
        let number: u8 = number.parse().ok()?;
        Some((number, words.to_string()))
    });
    rows.collect()
}

#[test]
fn the_readme_has_the_words_of_the_numbers() {
    let words = (0..=16).map(|number| (number, bore::refusal_text(number).to_string()));
    assert_eq!(words_of_readme(), words.collect::<Vec<_>>());
}
