//! What an example makes of a refusal number, and how it ends: with a text on standard output, or with
//! what is wrong on standard error and a status other than 0.

use std::io::{stdout, Write};
use std::process::ExitCode;

/// The text to print, or what is wrong.
pub type Outcome = Result<String, String>;

/// A call's number as a result.
pub fn accepted(number: u8) -> Result<(), u8> {
    if number == 0 {
        Ok(())
    } else {
        Err(number)
    }
}

/// What is wrong when a call is refused.
pub fn refused(number: u8) -> String {
    format!("refused {number}: {}", bore::refusal_text(number))
}

/// Prints, and gives the status.
pub fn end(outcome: Outcome) -> ExitCode {
    let printed = outcome.and_then(|text| {
        let written = writeln!(stdout(), "{text}");
        written.map_err(|error| format!("standard output cannot be written: {error}"))
    });
    match printed {
        Ok(()) => ExitCode::SUCCESS,
        Err(text) => {
            eprintln!("{text}");
            ExitCode::FAILURE
        }
    }
}
