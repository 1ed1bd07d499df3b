//! The program `boresums` in safe Rust, to be timed beside it as a process: it
//! reads all of standard input, works the job by the one pass, and prints each
//! row of sums through a buffer.

#![forbid(unsafe_code)]

#[path = "../checks.rs"]
mod checks;
#[path = "../jobs.rs"]
mod jobs;
#[path = "../stages/mod.rs"]
mod stages;

use checks::reach;
use stages::MOST_WIDTH;
use std::fs::File;
use std::io::{self, Read, Write};
use std::os::fd::AsFd;

/// The most bytes of the input.
const MOST_BYTES: usize = 65_536;
/// The work cells.
const CELLS: usize = 8_192;
/// The bytes of the buffer for the text,
const BUFFER: usize = 65_536;
/// and of the longest number with what comes after it.
const LONGEST: usize = 21;

/// The numbers 00 to 99.
const PAIRS: [[u8; 2]; 100] = {
    let mut pairs = [[0; 2]; 100];
    let mut n = 0;
    while n < 100 {
        pairs[n] = [b'0' + (n / 10) as u8, b'0' + (n % 10) as u8];
        n += 1;
    }
    pairs
};

/// Standard output with a buffer.
struct Text {
    out: File,
    buffer: [u8; BUFFER],
    length: usize,
}

impl Text {
    fn new() -> io::Result<Text> {
        let out = io::stdout().as_fd().try_clone_to_owned()?;
        Ok(Text {
            out: File::from(out),
            buffer: [0; BUFFER],
            length: 0,
        })
    }

    fn flush(&mut self) -> io::Result<()> {
        self.out.write_all(&self.buffer[..self.length])?;
        self.length = 0;
        Ok(())
    }

    /// A number and a byte after it.
    fn number(&mut self, mut n: u64, after: u8) -> io::Result<()> {
        if BUFFER - self.length < LONGEST {
            self.flush()?;
        }
        let mut digits = [0; LONGEST];
        let mut at = LONGEST - 1;
        digits[at] = after;
        while n >= 100 {
            at -= 2;
            digits[at..at + 2].copy_from_slice(&PAIRS[(n % 100) as usize]);
            n /= 100;
        }
        if n >= 10 {
            at -= 2;
            digits[at..at + 2].copy_from_slice(&PAIRS[n as usize]);
        } else {
            at -= 1;
            digits[at] = b'0' + n as u8;
        }
        let digits = &digits[at..];
        self.buffer[self.length..][..digits.len()].copy_from_slice(digits);
        self.length += digits.len();
        Ok(())
    }

    /// Numbers with single spaces between.
    fn line(&mut self, numbers: &[u64]) -> io::Result<()> {
        if let Some((&last, others)) = numbers.split_last() {
            for &n in others {
                self.number(n, b' ')?;
            }
            self.number(last, b'\n')?;
        }
        Ok(())
    }
}

/// The cells that a list needs for each place.
fn list_cells(list: &[u8]) -> usize {
    let cells = |&n: &u8| match n {
        1 => 0,
        2 => 1,
        n => n.into(),
    };
    list.iter().map(cells).sum()
}

/// Prints the sums, or gives the number of a refusal.
fn print(input: &[u8], text: &mut Text) -> io::Result<Result<(), u8>> {
    if input.len() > MOST_BYTES {
        return Ok(Err(14));
    }
    let job = match jobs::read(input) {
        Ok(job) => job,
        Err(number) => return Ok(Err(number)),
    };
    let [rows, columns] = job.lists;
    let full_width = job.width + reach(rows) as usize;
    let full_height = job.height + reach(columns) as usize;
    if list_cells(rows) + full_width * list_cells(columns) > CELLS {
        return Ok(Err(8));
    }
    text.line(&[full_width as u64, full_height as u64, job.weight])?;
    let mut cells = [0; CELLS];
    let mut row = [0; MOST_WIDTH];
    let mut pixels = input[job.offset..].chunks_exact(job.width);
    for emitted in 0..full_height {
        let row = &mut row[..full_width];
        let pixels = pixels.next().unwrap_or(&[]);
        stages::next_row(job.lists, emitted, pixels, row, &mut cells);
        text.line(row)?;
    }
    Ok(Ok(()))
}

fn main() -> io::Result<()> {
    let mut input = Vec::with_capacity(MOST_BYTES + 1);
    let most = MOST_BYTES as u64 + 1;
    io::stdin().lock().take(most).read_to_end(&mut input)?;
    let mut text = Text::new()?;
    match print(&input, &mut text)? {
        Ok(()) => text.flush(),
        Err(number) => writeln!(text.out, "refused {number}"),
    }
}
