//! The program `boresums`, target/bin/boresums, beside the reference: what it
//! prints has to be the same byte by byte. Each number and the paper's example
//! stand here as well. BORE_CASES and BORE_SEED set the random cases as they do
//! for the calls on a filter; the program runs on one of each 50.

mod common;

use common::any_jobs::any_bytes;
use common::job_parts::{Parts, EXAMPLE};
use common::program::{agrees, agrees_after, Way};
use common::{each_seed, meets};
use reference::boxes;
use reference::random::Random;
use std::time::Duration;

/// The most bytes that the program takes.
const MOST: usize = 65_536;

/// The program prints this text for a job.
fn prints(job: &Parts, text: &str) {
    assert_eq!(agrees(&job.bytes(), Way::Pipe), text, "{job:?}");
}

fn refuses(bytes: &[u8], number: u8) {
    let text = agrees(bytes, Way::Pipe);
    assert_eq!(text, format!("refused {number}\n"));
}

/// The program works the job of random pixels: its first line is this one.
fn begins(random: &mut Random, rows: &[u8], columns: &[u8], sides: [u16; 2], line: &str) {
    let pixels = random.pixels(sides.map(usize::from).iter().product());
    let job = Parts::new(rows, columns, sides, pixels);
    let text = agrees(&job.bytes(), Way::Pipe);
    assert_eq!(text.lines().next(), Some(line), "{rows:?}, {columns:?}");
}

/// A job of exactly 65,536 bytes: ones fill up the lists.
fn largest(random: &mut Random, rows: &[u8], columns: &[u8], sides: [u16; 2]) -> Parts {
    let pixels = random.pixels(sides.map(usize::from).iter().product());
    let mut job = Parts::new(rows, columns, sides, pixels);
    let mut rest = MOST - job.bytes().len();
    for (list, count) in job.lists.iter_mut().zip(&mut job.counts) {
        let more = rest.min(48 - list.len());
        list.extend(vec![1; more]);
        *count += more as u8;
        rest -= more;
    }
    assert_eq!((rest, job.bytes().len()), (0, MOST));
    job
}

#[test]
fn the_example() {
    let text = agrees(&EXAMPLE, Way::Pipe);
    assert_eq!(text, "3 1 4\n4 8 4\n");
    for length in 0..EXAMPLE.len() {
        refuses(&EXAMPLE[..length], 14);
    }
    refuses(&[&EXAMPLE[..], &[4]].concat(), 14);
    refuses(&[EXAMPLE, EXAMPLE].concat(), 14);
}

#[test]
fn rows_are_lines() {
    let job = Parts::new(&[2], &[1, 3], [2, 1], vec![1, 255]);
    prints(&job, "3 3 6\n1 256 255\n1 256 255\n1 256 255\n");
    let job = Parts::new(&[2], &[], [1, 2], vec![1, 1]);
    prints(&job, "2 2 2\n1 1\n1 1\n");
    let job = Parts::new(&[2, 2], &[2, 2], [1, 1], vec![1]);
    prints(&job, "3 3 16\n1 2 1\n2 4 2\n1 2 1\n");
    let job = Parts::new(&[], &[], [1, 1], vec![0]);
    prints(&job, "1 1 1\n0\n");
}

/// Every number that a job can meet, first by itself.
#[test]
fn every_refusal() {
    let grey = |rows: &[u8], columns: &[u8], sides| Parts::grey(rows, columns, sides, 9).bytes();
    refuses(&[], 14);
    refuses(b"bor\x01\x00\x00\x00\x01\x00\x01\x00\x09", 14);
    refuses(b"BOR\x02\x00\x00\x00\x01\x00\x01\x00\x09", 14);
    refuses(&grey(&[1; 49], &[], [1, 1]), 1);
    refuses(&grey(&[], &[1; 255], [1, 1]), 1);
    refuses(&grey(&[1; 48], &[1; 48], [1, 1])[..106], 14);
    refuses(&grey(&[2, 0], &[], [1, 1]), 2);
    refuses(&grey(&[], &[0], [1, 1]), 2);
    refuses(&grey(&[255, 3], &[], [1, 1]), 3);
    refuses(&grey(&[], &[255, 3], [1, 1]), 3);
    refuses(&grey(&[2; 23], &[2; 22], [1, 1]), 4);
    refuses(&grey(&[2; 22], &[2; 23], [1, 1]), 4);
    for sides in [[0, 1], [1, 0], [1025, 1], [1, 1025], [1025, 63]] {
        refuses(&grey(&[], &[], sides), 5);
    }
    refuses(&grey(&[], &[255], [33, 1]), 8);
    // What comes first of several.
    refuses(&grey(&[1; 49], &[0], [0, 0])[..7], 1);
    refuses(&grey(&[0], &[255, 3], [0, 0])[..13], 14);
    refuses(&grey(&[0], &[255, 3], [0, 0]), 2);
    refuses(&grey(&[255], &[2; 45], [0, 0]), 4);
    refuses(&Parts::new(&[], &[], [0, 1], vec![9]).bytes(), 5);
    refuses(&Parts::new(&[], &[255], [33, 1], vec![9]).bytes(), 14);
}

#[test]
fn up_to_8192_cells() {
    let mut random = Random::new(1);
    let mut line = |rows, columns, width, text| {
        begins(&mut random, rows, columns, [width, 3], text);
    };
    line(&[], &[2; 8], 1024, "1024 11 256");
    line(&[], &[8], 1024, "1024 10 8");
    line(&[16, 16], &[255], 2, "32 257 65280");
    line(&[2], &[2; 8], 1022, "1023 11 512");
    for (rows, columns, width) in [
        (&[2][..], &[2; 8][..], 1023),
        (&[2], &[8], 1023),
        (&[16, 16, 2], &[255], 1),
        (&[], &[9], 1024),
        (&[], &[255], 33),
    ] {
        refuses(&Parts::grey(rows, columns, [width, 3], 200).bytes(), 8);
    }
}

#[test]
fn the_longest_sides() {
    let mut random = Random::new(2);
    begins(&mut random, &[3], &[2, 2], [1024, 63], "1026 65 12");
    begins(&mut random, &[3], &[2, 2], [63, 1024], "65 1026 12");
    begins(&mut random, &[255, 2], &[], [1024, 1], "1279 1 510");
    begins(&mut random, &[], &[255, 2], [1, 1024], "1 1279 510");
    begins(&mut random, &[], &[255, 2], [31, 9], "31 264 510");
}

/// Jobs of 65,536 bytes, wide, tall and nearly square; one byte more is refused
/// before anything else is looked at.
#[test]
fn up_to_65536_bytes() {
    let mut random = Random::new(3);
    for (rows, columns, sides) in [
        (&[2][..], &[2][..], [1023, 64]),
        (&[2, 2], &[3], [1008, 65]),
        (&[2, 2], &[2], [64, 1023]),
        (&[3], &[2, 2], [65, 1008]),
        (&[2], &[2], [252, 260]),
        (&[2, 2], &[2, 2], [251, 261]),
        (&[], &[], [362, 181]),
        (&[], &[], [181, 362]),
    ] {
        let mut bytes = largest(&mut random, rows, columns, sides).bytes();
        let text = agrees(&bytes, Way::Pipe);
        let grown = usize::from(sides[1]) + reference::reach(&boxes(columns));
        assert_eq!(text.lines().count(), 1 + grown, "{sides:?}");
        bytes.push(0);
        refuses(&bytes, 14);
    }
}

#[test]
fn more_than_65536_bytes() {
    // In order but for its length: 11 + 4 + 65,522 bytes.
    let job = Parts::grey(&[1; 4], &[], [362, 181], 9).bytes();
    assert_eq!(
        (job.len(), reference::read_job(&job).is_ok()),
        (MOST + 1, true)
    );
    refuses(&job, 14);
    for (rows, sides, number) in [
        (&[1; 49][..], [1, 1], 1),
        (&[0], [1, 1], 2),
        (&[255, 3], [1, 1], 3),
        (&[2; 45], [1, 1], 4),
        (&[], [0, 1], 5),
        (&[], [1, 1], 14),
    ] {
        let mut bytes = Parts::grey(rows, &[], sides, 9).bytes();
        bytes.resize(MOST, 0);
        refuses(&bytes, number);
        bytes.push(0);
        refuses(&bytes, 14);
    }
    for length in [MOST + 2, 2 * MOST, 2 * MOST + 1, 1 << 20, 10_000_000] {
        let mut bytes = EXAMPLE.to_vec();
        bytes.resize(length, 0);
        refuses(&bytes, 14);
    }
}

/// The weight 2^44 on white pictures: the largest sum is 255 times 2^44.
#[test]
fn the_heaviest_sums() {
    for (rows, columns, sides) in [
        (&[2; 22][..], &[2; 22][..], [40, 30]),
        (&[4; 11], &[4; 11], [40, 40]),
        (&[4; 22], &[], [100, 2]),
        (&[], &[4; 22], [2, 70]),
        (&[16; 10], &[16], [160, 20]),
    ] {
        let job = Parts::grey(rows, columns, sides, 255).bytes();
        let text = agrees(&job, Way::Pipe);
        assert!(text.contains(" 17592186044416\n"), "{rows:?}, {columns:?}");
        assert!(text.contains("4486007441326080"), "{rows:?}, {columns:?}");
    }
}

/// More than a megabyte of text, with long numbers, from the largest input. The
/// reference forms some 40 million products for it.
#[test]
fn the_longest_text() {
    let mut random = Random::new(4);
    let job = largest(&mut random, &[2; 22], &[2; 22], [248, 264]).bytes();
    let text = agrees(&job, Way::Pipe);
    assert!(text.len() > 1_200_000, "{} bytes", text.len());
    // The output stays unread until its pipe has long been full.
    let slowly = agrees_after(&job, Way::Pipe, Duration::from_millis(300));
    assert_eq!(slowly, text);
}

/// The input comes in pieces with pauses, so that the program reads less than
/// it asks for; its end may come late.
#[test]
fn input_in_pieces() {
    let mut random = Random::new(5);
    let pause = Duration::from_millis(2);
    agrees(&EXAMPLE, Way::Pieces(1, pause));
    agrees(&EXAMPLE, Way::Pieces(13, 50 * pause));
    agrees(&EXAMPLE[..13], Way::Pieces(6, 10 * pause));
    let job = Parts::new(&[2, 2], &[2, 2], [40, 30], random.pixels(1200));
    agrees(&job.bytes(), Way::Pieces(7, pause));
    let mut most = largest(&mut random, &[2], &[3], [252, 260]).bytes();
    for piece in [997, 4096, 32_768, MOST - 1] {
        agrees(&most, Way::Pieces(piece, pause));
    }
    most.push(7);
    for piece in [4096, 32_768, MOST - 1, MOST] {
        let text = agrees(&most, Way::Pieces(piece, 10 * pause));
        assert_eq!(text, "refused 14\n");
    }
    most.resize(3 * MOST, 7);
    assert_eq!(agrees(&most, Way::Pieces(5000, pause)), "refused 14\n");
}

#[test]
fn input_from_a_file() {
    let mut random = Random::new(6);
    let way = Way::File("boresums.job");
    assert_eq!(agrees(&EXAMPLE, way), "3 1 4\n4 8 4\n");
    assert_eq!(agrees(&[], way), "refused 14\n");
    for sides in [[1023, 64], [252, 260]] {
        let mut bytes = largest(&mut random, &[2, 2], &[2], sides).bytes();
        agrees(&bytes, way);
        bytes.push(0);
        assert_eq!(agrees(&bytes, way), "refused 14\n");
    }
}

/// What the program prints for the job of a seed, as a number.
fn number_of(seed: u64) -> usize {
    let text = agrees(&any_bytes(seed).0, Way::Pipe);
    let number = text
        .strip_prefix("refused ")
        .map(|rest| rest.trim().parse());
    number.map_or(0, |number| number.expect("a number comes after the word"))
}

#[test]
fn random_and_damaged_jobs_agree() {
    each_seed(50, |seed| {
        number_of(seed);
    });
}

/// The same on other seeds, with how often each number is met.
#[test]
fn random_jobs_meet_every_number() {
    let mut numbers = [0; 16];
    for seed in 1_000_000..1_001_000 {
        numbers[number_of(seed)] += 1;
    }
    assert!(meets(&numbers, &[0, 1, 2, 3, 4, 5, 8, 14]), "{numbers:?}");
}
