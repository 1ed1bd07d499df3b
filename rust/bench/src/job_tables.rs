//! The tables of the job file: reading and writing it, and the program.

use crate::timing::alternate;
use crate::work::{cascade, noise};
use crate::{jobs, programs, RECIPES, SIDE};
use bore::{Cascade, Filter, Job};
use std::fs;
use std::hint::black_box;
use std::path::Path;

/// A job of a square picture with buffers for its file and for what is read.
#[derive(Clone)]
struct Work {
    filter: Filter,
    pixels: Vec<u8>,
    file: Vec<u8>,
    read: Job,
}

fn list(cascade: &Cascade) -> &[u8] {
    &cascade.widths[..cascade.count.into()]
}

/// All that a job holds, bytes past the counts included.
fn fields(job: &Job) -> ([(u8, [u8; 48]); 2], [usize; 3]) {
    let lists = [job.filter.rows, job.filter.columns].map(|list| (list.count, list.widths));
    (lists, [job.width, job.height, job.offset])
}

impl Work {
    fn new(rows: &[u8], columns: &[u8]) -> Work {
        let filter = Filter {
            rows: cascade(rows),
            columns: cascade(columns),
        };
        let mut size = 0;
        let number = bore::job_size(&filter, SIDE, SIDE, &mut size);
        assert_eq!(number, 0, "the job is accepted");
        Work {
            filter,
            pixels: noise(SIDE * SIDE),
            file: vec![0; size],
            read: Job {
                filter,
                width: 0,
                height: 0,
                offset: 0,
            },
        }
    }

    fn write(&mut self) {
        let number = bore::write_job(&self.filter, SIDE, SIDE, &self.pixels, &mut self.file);
        assert_eq!(number, 0, "the writing is accepted");
    }

    fn write_in_rust(&mut self) {
        let lists = [&self.filter.rows, &self.filter.columns].map(list);
        let written = jobs::write(lists, [SIDE, SIDE], &self.pixels, &mut self.file);
        assert_eq!(written, Ok(()), "the writing is accepted");
    }

    /// The pixels alone.
    fn copy(&mut self) {
        let at = self.file.len() - self.pixels.len();
        self.file[at..].copy_from_slice(black_box(&self.pixels));
    }

    fn read(&mut self) {
        let number = bore::read_job(black_box(&self.file), &mut self.read);
        assert_eq!(number, 0, "the reading is accepted");
    }

    fn read_in_rust(&mut self) {
        let read = jobs::read(black_box(&self.file)).expect("the reading is accepted");
        self.read = Job {
            filter: Filter {
                rows: cascade(read.lists[0]),
                columns: cascade(read.lists[1]),
            },
            width: read.width,
            height: read.height,
            offset: read.offset,
        };
    }
}

/// The readings of one run. The milliseconds of a thousand are the microseconds
/// of one.
const READINGS: usize = 1000;

/// Reading and writing a job beside the same work in Rust, and beside the copy
/// of its pixels.
pub fn files() {
    println!("Reading a job looks at its front and its length; writing it copies the pixels.");
    println!();
    println!(
        "| Job of 1,024 by 1,024 | Library, µs | Rust, µs | Library / Rust | Copy alone, µs |"
    );
    println!("|---|---|---|---|---|");
    for (name, rows, columns) in [RECIPES[0], ("48 widths each way", &[1; 48], &[1; 48])] {
        let mut library = Work::new(rows, columns);
        let mut rust = library.clone();
        let mut copy = library.clone();
        library.write();
        rust.write_in_rust();
        assert!(library.file == rust.file, "writing, {name}");
        library.read();
        rust.read_in_rust();
        let [by_library, by_rust] = [&library.read, &rust.read].map(fields);
        assert_eq!(by_library, by_rust, "reading, {name}");
        let [a, b, c] = alternate([
            &mut || library.write(),
            &mut || rust.write_in_rust(),
            &mut || copy.copy(),
        ])
        .map(|time| time * 1000.0);
        println!(
            "| {name}, writing | {a:.1} | {b:.1} | {:.2} | {c:.1} |",
            a / b
        );
        let [a, b] = alternate([
            &mut || (0..READINGS).for_each(|_| library.read()),
            &mut || (0..READINGS).for_each(|_| rust.read_in_rust()),
        ]);
        println!("| {name}, reading | {a:.3} | {b:.3} | {:.2} |  |", a / b);
    }
}

/// The jobs of the program: name, the widths both ways, width and height. The
/// files of the last two have nearly 65,536 bytes.
const JOBS: [(&str, &[u8], usize, usize); 3] = [
    ("one pixel", &[], 1, 1),
    ("5 by 5 binomial", &[2; 4], 255, 256),
    ("22 twos each way", &[2; 22], 255, 256),
];

fn job(list: &[u8], width: usize, height: usize) -> Vec<u8> {
    let pixels = noise(width * height);
    let mut file = vec![0; 11 + 2 * list.len() + pixels.len()];
    let written = jobs::write([list, list], [width, height], &pixels, &mut file);
    assert_eq!(written, Ok(()), "the job is accepted");
    file
}

/// The program beside the same program in Rust, and beside `cat`, which moves
/// the same text from a file to a pipe.
pub fn program() {
    let [library, rust] = [programs::boresums(), programs::boresums_rust()];
    let [job_file, text_file] = ["boresums.job", "boresums.txt"].map(programs::beside);
    println!("The program as a process, from its start to its end: a job from a file, the text");
    println!("to a pipe. `cat` moves the same text from a file to a pipe.");
    println!();
    println!(
        "| Job | Text, bytes | Program, ms | Rust, ms | Program / Rust | \
         Program, MB of text a second | `cat`, ms |"
    );
    println!("|---|---|---|---|---|---|---|");
    for (name, list, width, height) in JOBS {
        fs::write(&job_file, job(list, width, height)).expect("the job can be written");
        let [mut text, mut other] = [vec![], vec![]];
        programs::run(&library, &job_file, &mut text);
        programs::run(&rust, &job_file, &mut other);
        assert!(text == other, "the program, {name}");
        fs::write(&text_file, &text).expect("the text can be written");
        programs::run(Path::new("cat"), &text_file, &mut other);
        assert!(text == other, "cat, {name}");
        let length = text.len();
        let [mut to_a, mut to_b, mut to_c] = [(); 3].map(|_| Vec::with_capacity(length + 1));
        let [a, b, c] = alternate([
            &mut || programs::run(&library, &job_file, &mut to_a),
            &mut || programs::run(&rust, &job_file, &mut to_b),
            &mut || programs::run(Path::new("cat"), &text_file, &mut to_c),
        ]);
        // Bytes in a millisecond are thousands in a second.
        let speed = length as f64 / a / 1000.0;
        let ratio = a / b;
        println!("| {name} | {length} | {a:.2} | {b:.2} | {ratio:.2} | {speed:.0} | {c:.2} |");
    }
    for file in [job_file, text_file] {
        fs::remove_file(file).expect("the file can be removed");
    }
}
