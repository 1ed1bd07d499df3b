//! The job file and the text of the program.

use crate::rows;
use reference::{boresums, job_length, pixels_of, read_job, write_job, Job, Recipe};

const EXAMPLE: [u8; 14] = [
    0x42, 0x4F, 0x52, 0x01, 0x00, 0x02, 0x00, 0x02, 0x02, 0x01, 0x00, 0x01, 0x00, 0x04,
];

/// A job in parts, so that a test can damage one of them.
fn job_of(counts: [u8; 2], widths: &[u8], sides: [u16; 2], pixels: usize) -> Vec<u8> {
    let mut job = vec![0x42, 0x4F, 0x52, 1, 0];
    job.extend(counts);
    job.extend(widths);
    job.extend(sides[0].to_le_bytes());
    job.extend(sides[1].to_le_bytes());
    job.extend(vec![9; pixels]);
    job
}

#[test]
fn example_prints_its_text() {
    assert_eq!(boresums(&EXAMPLE), "3 1 4\n4 8 4\n");
}

#[test]
fn example_reads_and_writes() {
    let job = Job {
        recipe: rows(&[2, 2]),
        w: 1,
        h: 1,
        offset: 13,
    };
    assert_eq!(read_job(&EXAMPLE), Ok(job));
    assert_eq!(job_length(&rows(&[2, 2]), 1, 1), Ok(14));
    assert_eq!(write_job(&rows(&[2, 2]), 1, 1, &[4], 14).unwrap(), EXAMPLE);
}

#[test]
fn several_rows_print_line_by_line() {
    let recipe = Recipe::new(&[2], &[1, 3]);
    let job = write_job(&recipe, 2, 1, &[1, 255], 16).unwrap();
    assert_eq!(boresums(&job), "3 3 6\n1 256 255\n1 256 255\n1 256 255\n");
}

#[test]
fn numbers_are_low_byte_first() {
    let job = job_of([0, 0], &[], [0x0102, 0x0201], 0x0102 * 0x0201);
    let read = read_job(&job).unwrap();
    assert_eq!((read.w, read.h, read.offset), (258, 513, 11));
    let written = write_job(&read.recipe, 258, 513, &pixels_of(&job[11..]), job.len());
    assert_eq!(written, Ok(job));
}

#[test]
fn every_shorter_or_longer_example_is_refused_14() {
    for length in 0..EXAMPLE.len() {
        assert_eq!(read_job(&EXAMPLE[..length]), Err(14), "length {length}");
        assert_eq!(boresums(&EXAMPLE[..length]), "refused 14\n");
    }
    let mut longer = EXAMPLE.to_vec();
    longer.push(0);
    assert_eq!(read_job(&longer), Err(14));
}

#[test]
fn every_changed_byte_of_mark_and_version_is_refused_14() {
    for at in 0..5 {
        for value in 0..=255 {
            let mut job = EXAMPLE;
            job[at] = value;
            let wrong = value != EXAMPLE[at];
            assert_eq!(read_job(&job).err(), wrong.then_some(14));
        }
    }
}

#[test]
fn mark_and_version_come_before_counts() {
    let good = job_of([49, 0], &[], [1, 1], 1);
    assert_eq!(read_job(&good), Err(1));
    for at in 0..5 {
        let mut job = good.clone();
        job[at] ^= 0x80;
        assert_eq!(read_job(&job), Err(14));
    }
}

#[test]
fn counts_come_before_a_cut() {
    for counts in [[49, 0], [0, 49], [255, 255], [48, 49]] {
        let job = job_of(counts, &[], [0, 0], 0);
        assert_eq!(read_job(&job[..7]), Err(1));
        assert_eq!(read_job(&job[..6]), Err(14));
        assert_eq!(read_job(&job), Err(1));
    }
    let full = job_of([48, 48], &[1; 96], [1, 1], 1);
    assert_eq!(read_job(&full).unwrap().offset, 107);
}

#[test]
fn a_cut_comes_before_widths_and_sides() {
    let job = job_of([2, 1], &[0, 255, 3], [0, 1025], 0);
    for length in 7..job.len() {
        assert_eq!(read_job(&job[..length]), Err(14), "length {length}");
    }
    assert_eq!(read_job(&job), Err(2));
}

#[test]
fn widths_and_sides_come_before_the_total_length() {
    let twos = [2; 45];
    assert_eq!(read_job(&job_of([1, 1], &[1, 0], [0, 0], 3)), Err(2));
    assert_eq!(read_job(&job_of([2, 0], &[255, 3], [0, 0], 3)), Err(3));
    assert_eq!(read_job(&job_of([23, 22], &twos, [0, 0], 3)), Err(4));
    assert_eq!(read_job(&job_of([22, 22], &twos[1..], [0, 1], 3)), Err(5));
    assert_eq!(read_job(&job_of([0, 0], &[], [1, 0], 3)), Err(5));
    assert_eq!(read_job(&job_of([0, 0], &[], [1025, 1], 3)), Err(5));
    assert_eq!(read_job(&job_of([0, 0], &[], [1, 1025], 1025)), Err(5));
    assert_eq!(read_job(&job_of([0, 0], &[], [2, 2], 3)), Err(14));
    assert_eq!(read_job(&job_of([0, 0], &[], [2, 2], 5)), Err(14));
    assert!(read_job(&job_of([0, 0], &[], [2, 2], 4)).is_ok());
}

#[test]
fn program_takes_65536_bytes_and_no_more() {
    let most = job_of([3, 0], &[1; 3], [362, 181], 362 * 181);
    assert_eq!(most.len(), 65_536);
    assert!(boresums(&most).starts_with("362 181 1\n9 9 9"));
    let over = job_of([3, 1], &[1; 4], [362, 181], 362 * 181);
    assert!(read_job(&over).is_ok());
    assert_eq!(boresums(&over), "refused 14\n");
    let mut refused_1 = job_of([49, 0], &[], [1, 1], 0);
    refused_1.resize(65_536, 0);
    assert_eq!(boresums(&refused_1), "refused 1\n");
    refused_1.push(0);
    assert_eq!(boresums(&refused_1), "refused 14\n");
}

#[test]
fn program_has_8192_cells() {
    // Each two on the columns needs one cell for each of the 1,024 grown
    // columns, the two on the rows one more cell.
    let exact = job_of([0, 8], &[2; 8], [1024, 1], 1024);
    assert!(boresums(&exact).starts_with("1024 9 256\n"));
    let over = job_of([1, 8], &[2; 9], [1023, 1], 1023);
    assert_eq!(boresums(&over), "refused 8\n");
    let wrong_length = job_of([1, 8], &[2; 9], [1023, 1], 1022);
    assert_eq!(boresums(&wrong_length), "refused 14\n");
}

#[test]
fn program_prints_each_refusal_of_a_job() {
    let twos = [2; 45];
    assert_eq!(boresums(&[]), "refused 14\n");
    assert_eq!(boresums(&job_of([1, 0], &[0], [1, 1], 1)), "refused 2\n");
    assert_eq!(
        boresums(&job_of([0, 2], &[255, 3], [1, 1], 1)),
        "refused 3\n"
    );
    assert_eq!(boresums(&job_of([22, 23], &twos, [1, 1], 1)), "refused 4\n");
    assert_eq!(boresums(&job_of([0, 0], &[], [0, 1], 0)), "refused 5\n");
}
