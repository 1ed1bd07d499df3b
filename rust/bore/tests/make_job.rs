//! The sample job that comes with the library, jobs/wall.job, and the example
//! `make_job` that makes it of jobs/wall.pgm.

mod common;
#[allow(dead_code)]
#[path = "../examples/make_job.rs"]
mod make_job;

use common::filter;
use common::program::{agrees, Way};
use make_job::pgm::{self, Pgm};
use reference::Recipe;
use std::fs;
use std::path::Path;

/// The path of a sample.
fn path(name: &str) -> String {
    let folder = Path::new(env!("CARGO_MANIFEST_DIR")).join("../../jobs");
    let path = folder.join(name);
    path.to_str().expect("the path is text").to_string()
}

fn sample(name: &str) -> Vec<u8> {
    fs::read(path(name)).expect("the sample can be read")
}

fn wall() -> Pgm {
    pgm::read(&sample("wall.pgm")).expect("the sample is a PGM picture")
}

#[test]
fn the_sample_is_made_of_its_picture() {
    let picture = wall();
    assert_eq!((picture.width, picture.height), (24, 10));
    let job = sample("wall.job");
    let recipe = Recipe::new(&[2, 2], &[2, 2]);
    let pixels = reference::pixels_of(&picture.pixels);
    let expected = reference::write_job(&recipe, 24, 10, &pixels, 11 + 4 + 240);
    assert_eq!(Ok(&job), expected.as_ref());
    let made = make_job::job(&filter(&[2, 2], &[2, 2]), &picture);
    assert_eq!(Ok(job), made);
}

#[test]
fn the_sample_prints_its_sums() {
    let text = agrees(&sample("wall.job"), Way::Pipe);
    assert!(text.starts_with("26 12 16\n"), "{text}");
    assert_eq!(text.lines().count(), 13);
}

#[test]
fn plain_and_binary_pictures() {
    let plain = b"P2 # kind\n# a comment\n3 2\n200\n0 1 35\n#35 35\n10\t9 200";
    let binary = b"P5\n# a comment\n3 # 4\n2\n200\n\x00\x01#\x0A\x09\xC8";
    for file in [&plain[..], binary] {
        let picture = pgm::read(file).expect("the picture can be read");
        assert_eq!((picture.width, picture.height), (3, 2));
        assert_eq!(picture.pixels, [0, 1, 35, 10, 9, 200]);
    }
}

#[test]
fn files_that_are_no_such_picture() {
    for file in [
        &b""[..],
        b"P2",
        b"P2 1 1",
        b"P5 1 1 255",
        b"P5 1 1 255#9",
        b"P1 1 1 1 0",
        b"P3 1 1 255 1 2 3",
        b"P6 1 1 255 123",
        b"p2 1 1 255 9",
        b"P2 -1 1 255 9",
        b"P2 1 1 256 9",
        b"P2 1 1 65535 9",
        b"P2 1 1 255 256",
        b"P2 1 1 255 -1",
        b"P2 1 1 255 x",
        b"P2 1 1 8 9",
        b"P5 1 1 8 \x09",
        b"P2 99999999999999999999 1 255 9",
    ] {
        let found = pgm::read(file).is_some();
        assert!(!found, "{}", String::from_utf8_lossy(file));
    }
}

/// The outcome for these words of the command.
fn by_words(words: [&str; 4]) -> Result<String, String> {
    make_job::make_job(&words.map(str::to_string))
}

#[test]
fn the_file_is_written() {
    let out = Path::new(env!("CARGO_TARGET_TMPDIR")).join("make_job.job");
    let to = out.to_str().expect("the path is text");
    let made = by_words(["2,2", "2,2", &path("wall.pgm"), to]);
    assert_eq!(made, Ok(format!("{to}: 24 by 10, 255 bytes")));
    let written = fs::read(&out).expect("the job can be read");
    fs::remove_file(&out).expect("the job can be removed");
    assert_eq!(written, sample("wall.job"));
}

/// What is wrong is said, and no file is written.
#[test]
fn no_file_is_written() {
    let out = Path::new(env!("CARGO_TARGET_TMPDIR")).join("make_no_job.job");
    fs::remove_file(&out).ok();
    let to = out.to_str().expect("the path is text");
    let from = path("wall.pgm");
    let long = vec!["1"; 49].join(",");
    let too_long = "refused 1: a list is longer than 48 widths";
    for (words, text) in [
        ([&long, "-", &from, to], too_long),
        (["-", &long, &from, to], too_long),
        (["2,0", "-", &from, to], "refused 2: a width is 0"),
        (["-", "255,3", &from, to], "refused 3: a reach is above 255"),
        (["2,2", "256", &from, to], "usage: "),
        (["x", &long, &from, to], "usage: "),
        (["2,2", "2,2", &path("wall.job"), to], &path("wall.job")),
        (["2,2", "2,2", &path("no.pgm"), to], &path("no.pgm")),
    ] {
        let found = by_words(words).expect_err("no job is made");
        assert!(found.starts_with(text), "{found}");
        assert!(!out.exists(), "{words:?}");
    }
    let words = ["2,2", "2,2", &from].map(str::to_string);
    let found = make_job::make_job(&words).expect_err("a word is missing");
    assert!(found.starts_with("usage: "), "{found}");
}

/// Sides and pixels are left to the library.
#[test]
fn refusals_are_numbered() {
    let picture = |file: &[u8]| pgm::read(file).expect("the picture can be read");
    let one = picture(b"P2 1 1 255 9");
    for (rows, number) in [(&[1; 49][..], 1), (&[0], 2), (&[255, 3], 3), (&[2; 45], 4)] {
        assert_eq!(make_job::job(&filter(rows, &[]), &one), Err(number));
        assert_eq!(make_job::job(&filter(&[], rows), &one), Err(number));
    }
    for (file, number) in [
        (&b"P2 0 1 255"[..], 5),
        (b"P2 1 1025 255 9", 5),
        (b"P2 4294967296 4294967296 255", 5),
        (b"P2 2 1 255 9", 6),
        (b"P2 2 1 255 9 9 9", 6),
        (b"P5 2 1 255 9", 6),
        (b"P5 2 1 255 999", 6),
    ] {
        let found = make_job::job(&filter(&[2], &[]), &picture(file));
        assert_eq!(found, Err(number), "{}", String::from_utf8_lossy(file));
    }
}
