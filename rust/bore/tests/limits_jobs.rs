//! The calls on jobs at each limit of document 01: every number stands here as
//! the paper gives it, and nearly every call is compared with the reference too.

mod common;

use bore::{Filter, Job};
use common::agree_jobs::{any_job, read, size, write};
use common::causes::{first, from_bits, with_refusals};
use common::job_parts::{Parts, EXAMPLE};
use common::pictures::{Picture, REFUSED};
use common::values::fields_of_job;
use common::{filter, narrow, on_axis, Case, ABOVE, BELOW, EQUAL, WRAPPED};
use reference::random::Random;

/// Rows 2,3 and columns 2,2. With a picture 5 by 3 the job has 30 bytes.
fn both() -> Filter {
    filter(&[2, 3], &[2, 2])
}

/// Reads the job of a filter and a picture of one pixel, writes it and asks for
/// its length: all three have to give this number.
fn all_calls(random: &mut Random, filter: Filter, number: u8) {
    let case = Case::fixed(random, filter);
    let picture = Picture::random(random, 1, 1, 1);
    let job = Parts::of_filter(&filter, [1, 1], vec![9]).bytes();
    assert_eq!(read(random, &job), number, "{case:?}");
    assert_eq!(size(&case, random, 1, 1), number, "{case:?}");
    let found = write(&case, random, &picture, job.len());
    assert_eq!(found, number, "{case:?}");
}

#[test]
fn the_example() {
    let mut random = Random::new(1);
    let rows = filter(&[2, 2], &[]);
    let case = Case::fixed(&mut random, rows);
    assert_eq!(read(&mut random, &EXAMPLE), 0);
    assert_eq!(size(&case, &mut random, 1, 1), 0);
    let mut job = any_job(&mut random);
    assert_eq!(bore::read_job(&EXAMPLE, &mut job), 0);
    let expected = Job {
        filter: rows,
        width: 1,
        height: 1,
        offset: 13,
    };
    assert_eq!(fields_of_job(&job), fields_of_job(&expected));
    let (mut length, mut out) = (0, [0; 14]);
    assert_eq!(bore::job_size(&rows, 1, 1, &mut length), 0);
    assert_eq!(length, 14);
    assert_eq!(bore::write_job(&rows, 1, 1, &[4], &mut out), 0);
    assert_eq!(out, EXAMPLE);
}

#[test]
fn a_refused_reading_leaves_zeros() {
    let mut random = Random::new(2);
    let mut wrong = EXAMPLE;
    for (at, value, number) in [
        (0, 0x62, 14),
        (5, 49, 1),
        (5, 48, 14),
        (8, 0, 2),
        (9, 0, 5),
        (9, 2, 14),
    ] {
        wrong[at] = value;
        let mut job = any_job(&mut random);
        assert_eq!(bore::read_job(&wrong, &mut job), number);
        let zeros = Job {
            filter: filter(&[], &[]),
            width: 0,
            height: 0,
            offset: 0,
        };
        let [found, zeros] = [&job, &zeros].map(fields_of_job);
        assert_eq!(found, zeros, "refused {number}");
        wrong[at] = EXAMPLE[at];
    }
}

#[test]
fn mark_and_version() {
    let mut random = Random::new(3);
    let good = Parts::grey(&[2, 2], &[], [1, 1], 4);
    for mark in [*b"bor", *b"Bor", *b"ROB", *b"BRO", *b"BOS", [0; 3]] {
        let job = Parts {
            mark,
            ..good.clone()
        };
        assert_eq!(read(&mut random, &job.bytes()), 14, "{mark:?}");
    }
    for version in 0..=65_535 {
        let job = Parts {
            version,
            ..good.clone()
        };
        let number = if version == 1 { 0 } else { 14 };
        assert_eq!(read(&mut random, &job.bytes()), number, "version {version}");
    }
}

/// Counts with lists of just this length, and with lists that are empty.
#[test]
fn every_count_on_either_axis() {
    let mut random = Random::new(4);
    for count in 0..=255 {
        let list = vec![1; usize::from(count)];
        for lists in [[&list[..], &[2]], [&[2], &list], [&list, &list]] {
            let job = Parts::grey(lists[0], lists[1], [2, 1], 7);
            let number = u8::from(count > 48);
            assert_eq!(read(&mut random, &job.bytes()), number, "{count}");
        }
        for counts in [[count, 0], [0, count], [count, count]] {
            let job = Parts {
                counts,
                ..Parts::grey(&[], &[], [1, 1], 1)
            };
            // The bytes of the sides and the pixel are no whole lists.
            let number = match count {
                0 => 0,
                1..=48 => 14,
                _ => 1,
            };
            assert_eq!(read(&mut random, &job.bytes()), number, "{counts:?}");
        }
    }
}

#[test]
fn counts_at_the_limits_on_both_axes() {
    let mut random = Random::new(5);
    let counts = [0, 1, 48, 49, 255];
    for row_count in counts {
        for column_count in counts {
            let mut filter = filter(&[1; 48], &[1; 48]);
            filter.rows.count = row_count;
            filter.columns.count = column_count;
            let refused = row_count > 48 || column_count > 48;
            all_calls(&mut random, filter, u8::from(refused));
        }
    }
}

#[test]
fn a_width_of_zero_at_every_place() {
    let mut random = Random::new(6);
    for place in 0..48 {
        for on_rows in [true, false] {
            let mut list = [1; 48];
            list[place] = 0;
            all_calls(&mut random, on_axis(&list, on_rows), 2);
            all_calls(&mut random, on_axis(&list[..place], on_rows), 0);
        }
    }
    all_calls(&mut random, filter(&[0; 48], &[0; 48]), 2);
}

#[test]
fn reaches_and_weights_at_the_limits() {
    let mut random = Random::new(7);
    for (list, number) in [
        (&[255][..], 0),
        (&[255, 2], 0),
        (&[2, 255], 0),
        (&[255, 1, 1, 2], 0),
        (&[255, 3], 3),
        (&[255, 2, 2], 3),
        (&[129, 129], 3),
        (&[128, 129], 0),
        (&[255; 48], 3),
        (&BELOW, 0),
        (&ABOVE, 4),
        (&WRAPPED, 4),
        (&[2; 44], 0),
        (&[2; 45], 4),
        (&[0, 255, 255], 2),
    ] {
        for on_rows in [true, false] {
            all_calls(&mut random, on_axis(list, on_rows), number);
        }
    }
    all_calls(&mut random, filter(&[255, 2], &[2, 255]), 0);
    all_calls(&mut random, filter(&[2; 22], &[2; 22]), 0);
    all_calls(&mut random, filter(&[2; 23], &[2; 22]), 4);
    all_calls(&mut random, filter(&[2; 22], &[2; 23]), 4);
    for (n, times) in EQUAL {
        let list = vec![n; times];
        let (rows, columns) = list.split_at(times / 2);
        let heavy = f64::from(n).powi(times as i32) > 2f64.powi(44);
        all_calls(
            &mut random,
            filter(rows, columns),
            if heavy { 4 } else { 0 },
        );
    }
}

/// Every 16-bit number as a side, with the pixels that it asks for where it is
/// accepted.
#[test]
fn every_side() {
    let mut random = Random::new(8);
    for side in 0..=65_535 {
        let accepted = (1..=1024).contains(&side);
        let pixels = if accepted { usize::from(side) } else { 1 };
        for sides in [[side, 1], [1, side]] {
            let job = Parts::new(&[2], &[], sides, vec![5; pixels]);
            let number = if accepted { 0 } else { 5 };
            assert_eq!(read(&mut random, &job.bytes()), number, "{sides:?}");
        }
    }
}

/// Sides at the limits, each job with the right number of pixels, with one more
/// and with one less.
#[test]
fn sides_at_the_limits() {
    let mut random = Random::new(9);
    let sides = [0, 1, 2, 255, 256, 1023, 1024, 1025, 65_535];
    for (width, height) in sides.iter().flat_map(|&w| sides.map(|h| (w, h))) {
        let accepted = [width, height].iter().all(|side| (1..=1024).contains(side));
        let size = usize::from(width) * usize::from(height);
        for (pixels, number) in [(size, 0), (size + 1, 14), (size.saturating_sub(1), 14)] {
            let pixels = vec![3; pixels.min((1 << 20) + 1)];
            let job = Parts::new(&[], &[1], [width, height], pixels);
            let number = if accepted { number } else { 5 };
            let note = format_args!("{width} by {height}");
            assert_eq!(read(&mut random, &job.bytes()), number, "{note}");
        }
    }
}

/// The bytes 2 1 are the width 258, 1 2 the height 513.
#[test]
fn sides_are_low_byte_first() {
    let mut random = Random::new(10);
    let mut bytes = b"BOR\x01\x00\x00\x00\x02\x01\x01\x02".to_vec();
    bytes.extend(narrow::<_, u8>(&random.pixels(258 * 513)));
    assert_eq!(read(&mut random, &bytes), 0);
    let mut job = any_job(&mut random);
    assert_eq!(bore::read_job(&bytes, &mut job), 0);
    assert_eq!((job.width, job.height, job.offset), (258, 513, 11));
}

/// The causes of reading in the paper's order, and their numbers: head, 1, cut
/// short, 2 to 5, another length.
const ORDER: [u8; 8] = [14, 1, 14, 2, 3, 4, 5, 14];

/// Every choice of causes, those of the recipe on either axis.
#[test]
fn the_first_refusal_of_reading_wins() {
    let mut random = Random::new(11);
    for bits in 0..256 {
        let wished: [bool; 8] = from_bits(bits);
        let [head, long, cut, zero, reach, weight, side, length] = wished;
        for on_rows in 0..16 {
            let causes = [long, zero, reach, weight];
            let filter = with_refusals(&mut random, causes, from_bits(on_rows));
            let refused = random.one_of(&[[0, 2], [2, 0], [1025, 1], [1, 65_535]]);
            let sides = if side { refused } else { [2, 3] };
            let right = sides.map(usize::from).iter().product();
            let wrong = if right == 0 {
                1
            } else {
                random.one_of(&[right - 1, right + 1])
            };
            let pixels = random.pixels(if length { wrong } else { right });
            let mut job = Parts::of_filter(&filter, sides, pixels);
            if head && random.coin() {
                job.mark[random.between(0, 2)] ^= 0x20;
            } else if head {
                job.version = random.one_of(&[0, 2, 256, 257]);
            }
            let mut bytes = job.bytes();
            if cut {
                bytes.truncate(random.between(7, job.offset() - 1));
            }
            let number = first(wished, ORDER);
            assert_eq!(read(&mut random, &bytes), number, "{wished:?}, {job:?}");
            bytes.truncate(random.between(0, 6));
            assert_eq!(read(&mut random, &bytes), 14, "{wished:?}, {job:?}");
        }
    }
}

#[test]
fn writing_refuses_in_order() {
    let mut random = Random::new(12);
    let case = Case::fixed(&mut random, both());
    for ([pixels, out], number) in [
        ([15, 30], 0),
        ([15, 29], 7),
        ([15, 31], 7),
        ([15, 15], 7),
        ([15, 0], 7),
        ([14, 30], 6),
        ([14, 29], 6),
        ([16, 31], 6),
        ([16, 30], 6),
        ([0, 0], 6),
    ] {
        let picture = Picture::random(&mut random, 5, 3, pixels);
        let found = write(&case, &mut random, &picture, out);
        assert_eq!(found, number, "{pixels} pixels, length {out}");
    }
    for (width, height) in REFUSED {
        assert_eq!(size(&case, &mut random, width, height), 5);
        for out in [0, 15, 16, 30] {
            for pixels in [0, 1, 15] {
                let picture = Picture::random(&mut random, width, height, pixels);
                let found = write(&case, &mut random, &picture, out);
                assert_eq!(found, 5, "{width} by {height}");
            }
        }
    }
}

/// Every choice of causes, those of the recipe on either axis.
#[test]
fn the_lowest_refusal_of_writing_wins() {
    let mut random = Random::new(13);
    for bits in 0..128 {
        let wished: [bool; 7] = from_bits(bits);
        let [_, _, _, _, side, pixels, output] = wished;
        let causes = std::array::from_fn(|i| wished[i]);
        for on_rows in 0..16 {
            let filter = with_refusals(&mut random, causes, from_bits(on_rows));
            let case = Case::fixed(&mut random, filter);
            let width = if side { random.one_of(&[0, 1025]) } else { 4 };
            let picture = Picture::random(&mut random, width, 1, if pixels { 3 } else { 4 });
            let right = 11 + usize::from(filter.rows.count) + usize::from(filter.columns.count) + 4;
            let out = if output {
                random.one_of(&[right - 1, right + 1])
            } else {
                right
            };
            let number = first(wished, [1, 2, 3, 4, 5, 6, 7]);
            let found = write(&case, &mut random, &picture, out);
            assert_eq!(found, number, "{case:?}");
            let number = if number > 5 { 0 } else { number };
            assert_eq!(size(&case, &mut random, width, 1), number, "{case:?}");
        }
    }
}

/// The length goes up to 11 + 96 + 1,024 times 1,024 bytes.
#[test]
fn lengths() {
    for (rows, columns, width, height, length) in [
        (&[][..], &[][..], 1, 1, 12),
        (&[2, 2], &[], 1, 1, 14),
        (&[2, 3], &[2, 2], 5, 3, 30),
        (&[1; 48], &[1; 48], 1, 1, 108),
        (&[], &[], 1024, 1, 1035),
        (&[], &[1], 1, 1024, 1036),
        (&[1; 48], &[1; 48], 1024, 1024, 1_048_683),
    ] {
        let mut found = 0;
        let number = bore::job_size(&filter(rows, columns), width, height, &mut found);
        assert_eq!((number, found), (0, length), "{width} by {height}");
    }
}
