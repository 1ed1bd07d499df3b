//! Makes the job of a recipe and a picture, or prints the refusal.
//!
//! Usage: make_job ROWS COLUMNS PICTURE.pgm OUT.job, the lists as widths with commas, `-` for an empty
//! list.

mod lists;
mod outcome;
pub mod pgm;

use bore::Filter;
use lists::{filter, list};
use outcome::{accepted, end, refused, Outcome};
use pgm::Pgm;
use std::fs;
use std::process::ExitCode;

const USAGE: &str = "usage: make_job ROWS COLUMNS PICTURE.pgm OUT.job, as in: \
    make_job 2,2 2,2 wall.pgm wall.job";

/// The bytes of the job, or the refusal.
pub fn job(filter: &Filter, picture: &Pgm) -> Result<Vec<u8>, u8> {
    let (width, height) = (picture.width, picture.height);
    let mut size = 0;
    accepted(bore::job_size(filter, width, height, &mut size))?;
    let mut out = vec![0; size];
    accepted(bore::write_job(
        filter,
        width,
        height,
        &picture.pixels,
        &mut out,
    ))?;
    Ok(out)
}

/// Makes the file; what to print, or what is wrong.
fn make(filter: &Filter, from: &str, to: &str) -> Outcome {
    let bytes = fs::read(from).map_err(|error| format!("{from}: {error}"))?;
    let picture = pgm::read(&bytes);
    let picture = picture.ok_or(format!("{from}: no PGM picture with greys up to 255"))?;
    let job = job(filter, &picture).map_err(refused)?;
    fs::write(to, &job).map_err(|error| format!("{to}: {error}"))?;
    let (width, height) = (picture.width, picture.height);
    Ok(format!("{to}: {width} by {height}, {} bytes", job.len()))
}

/// Does what the words of the command say.
pub fn make_job(words: &[String]) -> Outcome {
    let [rows, columns, from, to] = words else {
        return Err(USAGE.to_string());
    };
    let [rows, columns] = [rows, columns].map(|text| list(text).ok_or(USAGE));
    let filter = filter(&rows?, &columns?).map_err(refused)?;
    make(&filter, from, to)
}

fn main() -> ExitCode {
    let words: Vec<String> = std::env::args().skip(1).collect();
    end(make_job(&words))
}
