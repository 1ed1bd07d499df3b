//! Reading, writing and measuring jobs beside the reference: random and damaged
//! jobs, small ones with every byte changed to every value and cut at every
//! length, and larger ones. Every accepted job is also written again or read
//! back. BORE_CASES and BORE_SEED set the random cases as they do for the calls
//! on a filter.

mod common;

use common::agree_jobs::{read, size, write};
use common::any_jobs::any_bytes;
use common::job_parts::Parts;
use common::pictures::{any_length, any_sides, larger_picture, pictured, Picture, LIGHT};
use common::{each_seed, filter, meets, Case};
use reference::random::Random;

fn reading(seed: u64) -> u8 {
    let (bytes, mut random) = any_bytes(seed);
    read(&mut random, &bytes)
}

#[test]
fn reading_agrees() {
    each_seed(1, |seed| {
        reading(seed);
    });
}

fn writing(seed: u64) -> u8 {
    let (case, mut random, picture) = pictured(seed);
    let right = reference::job_length(&case.recipe(), picture.width, picture.height);
    let out_len = any_length(&mut random, right.unwrap_or(20));
    write(&case, &mut random, &picture, out_len)
}

#[test]
fn writing_agrees() {
    each_seed(1, |seed| {
        writing(seed);
    });
}

fn measuring(seed: u64) -> u8 {
    let (case, mut random) = Case::random(seed);
    let (width, height) = any_sides(&mut random, &case.recipe());
    let (wide, high) = (random.between(1, 1024), random.between(1, 1024));
    let sides = [(width, height), (wide, height), (width, high), (wide, high)];
    let (width, height) = random.one_of(&sides);
    size(&case, &mut random, width, height)
}

#[test]
fn sizes_agree() {
    each_seed(1, |seed| {
        measuring(seed);
    });
}

/// Which 14 a refused job gets: 0 for its head, 1 where it is cut short, 2 for
/// its length.
fn kind_of_14(bytes: &[u8]) -> usize {
    if bytes.len() < 7 || !bytes.starts_with(b"BOR\x01\x00") {
        return 0;
    }
    let cut = bytes.len() < 11 + usize::from(bytes[5]) + usize::from(bytes[6]);
    if cut {
        1
    } else {
        2
    }
}

/// How often the first cases meet each number, and each kind of 14.
#[test]
fn random_jobs_meet_every_number() {
    let [mut reads, mut writes, mut sizes] = [[0; 16]; 3];
    let mut kinds = [0; 3];
    for seed in 0..3000 {
        let number = reading(seed);
        reads[usize::from(number)] += 1;
        if number == 14 {
            kinds[kind_of_14(&any_bytes(seed).0)] += 1;
        }
        writes[usize::from(writing(seed))] += 1;
        sizes[usize::from(measuring(seed))] += 1;
    }
    assert!(meets(&reads, &[0, 1, 2, 3, 4, 5, 14]), "{reads:?}");
    assert!(meets(&kinds, &[0, 1, 2]), "{kinds:?}");
    assert!(meets(&writes, &[0, 1, 2, 3, 4, 5, 6, 7]), "{writes:?}");
    assert!(meets(&sizes, &[0, 1, 2, 3, 4, 5]), "{sizes:?}");
}

/// Small jobs: the paper's, the smallest, both axes, full lists, reach and
/// weight at their limits, sides of two bytes, and the largest sides.
fn small_jobs() -> Vec<Vec<u8>> {
    let parts = [
        Parts::grey(&[2, 2], &[], [1, 1], 4),
        Parts::grey(&[], &[], [1, 1], 0),
        Parts::grey(&[2, 3], &[4, 1], [5, 3], 77),
        Parts::grey(&[], &[3; 4], [3, 5], 200),
        Parts::grey(&[1; 48], &[1; 48], [1, 2], 1),
        Parts::grey(&[255, 2], &[2, 255], [2, 1], 255),
        Parts::grey(&[2; 22], &[2; 22], [2, 2], 66),
        Parts::grey(&[1], &[2], [2, 256], 79),
        Parts::grey(&[2], &[1], [257, 1], 82),
        Parts::grey(&[], &[], [1, 1024], 1),
        Parts::grey(&[], &[], [1024, 1], 4),
    ];
    parts.iter().map(Parts::bytes).collect()
}

/// Every byte of lists and sides, and up to 128 bytes in all.
#[test]
fn every_byte_changed_to_every_value() {
    let mut random = Random::new(1);
    for job in small_jobs() {
        for at in 0..job.len().min(128) {
            for value in 0..=255 {
                let mut changed = job.clone();
                changed[at] = value;
                read(&mut random, &changed);
            }
        }
    }
}

/// Two neighbours at once: both bytes of the version and of each side, both
/// counts, and all that stands beside them.
#[test]
fn neighbours_changed_together() {
    let mut random = Random::new(2);
    let values = [0, 1, 2, 3, 4, 5, 47, 48, 49, 66, 79, 82, 128, 254, 255];
    for job in small_jobs() {
        for at in 0..job.len().min(40) - 1 {
            for low in values {
                for high in values {
                    let mut changed = job.clone();
                    changed[at] = low;
                    changed[at + 1] = high;
                    read(&mut random, &changed);
                }
            }
            let mut exchanged = job.clone();
            exchanged.swap(at, at + 1);
            read(&mut random, &exchanged);
        }
    }
}

/// Only the whole job is accepted: every part of it from the front, and every
/// longer one, is refused 14.
#[test]
fn cut_at_every_length_and_made_longer() {
    let mut random = Random::new(3);
    for job in small_jobs() {
        for length in 0..job.len() {
            assert_eq!(read(&mut random, &job[..length]), 14, "length {length}");
        }
        assert_eq!(read(&mut random, &job), 0);
        for more in (1..=20).chain([256, 1024, 65_536, job.len()]) {
            let mut longer = job.clone();
            longer.extend(job.iter().cycle().take(more));
            assert_eq!(read(&mut random, &longer), 14, "{more} more bytes");
        }
    }
}

/// Pictures with sides up to 1,024: whole, and with a byte too few or too many.
#[test]
fn larger_jobs_agree() {
    each_seed(2000, |seed| {
        let mut random = Random::new(seed);
        let (rows, columns) = random.one_of(&LIGHT);
        let case = Case::new(&mut random, seed, filter(rows, columns));
        let picture = larger_picture(&mut random);
        whole_and_not_whole(&case, &mut random, &picture);
    });
}

#[test]
fn the_largest_job_agrees() {
    let mut random = Random::new(4);
    for (rows, columns) in [(&[2; 22][..], &[2; 22][..]), (&[1; 48], &[1; 48])] {
        let case = Case::fixed(&mut random, filter(rows, columns));
        let picture = Picture::random(&mut random, 1024, 1024, 1 << 20);
        whole_and_not_whole(&case, &mut random, &picture);
    }
}

/// Reads and writes the job of a picture, and ones whose length is off by one.
fn whole_and_not_whole(case: &Case, random: &mut Random, picture: &Picture) {
    let (width, height) = (picture.width, picture.height);
    let size = width * height;
    let sides = [width, height].map(|side| side as u16);
    let job = Parts::of_filter(&case.filter, sides, picture.pixels.clone());
    let mut bytes = job.bytes();
    assert_eq!(write(case, random, picture, bytes.len()), 0, "{case:?}");
    assert_eq!(write(case, random, picture, bytes.len() - 1), 7, "{case:?}");
    assert_eq!(write(case, random, picture, bytes.len() + 1), 7, "{case:?}");
    for pixels in [size - 1, size + 1] {
        let other = Picture::random(random, width, height, pixels);
        assert_eq!(write(case, random, &other, bytes.len()), 6, "{case:?}");
    }
    assert_eq!(read(random, &bytes), 0, "{case:?}");
    bytes.push(0);
    assert_eq!(read(random, &bytes), 14, "{case:?}");
    bytes.truncate(job.offset() + size - 1);
    assert_eq!(read(random, &bytes), 14, "{case:?}");
}
