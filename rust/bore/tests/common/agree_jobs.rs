//! Reading, writing and measuring jobs beside the reference, one function for
//! each: it makes the call, for writing and measuring with a case's filter and
//! with the twin, compares the number and all that was lent, and returns the
//! number. An accepted job is also written again or read back.

use super::agree::number;
use super::lent::Lent;
use super::pictures::Picture;
use super::values::fields_of_job;
use super::{any_state, filter_of, narrow, Case};
use bore::Job;
use reference::random::Random;

/// The library's form of a job, zeros past the ends of the lists.
fn job_of(job: &reference::Job) -> Job {
    Job {
        filter: filter_of(&job.recipe),
        width: job.w,
        height: job.h,
        offset: job.offset,
    }
}

/// A job of random values, for a call that has to write all of it.
pub fn any_job(random: &mut Random) -> Job {
    let state = any_state(random);
    Job {
        filter: state.filter,
        width: state.width,
        height: state.height,
        offset: state.emitted,
    }
}

/// The length of a job that is accepted.
fn accepted_size(job: &Job) -> usize {
    let mut size = usize::MAX;
    let number = bore::job_size(&job.filter, job.width, job.height, &mut size);
    assert_eq!(number, 0, "size, {job:?}");
    size
}

/// The file of an accepted job, written from what was read, has the same bytes.
fn written_again(bytes: &[u8], job: &Job) {
    assert_eq!(accepted_size(job), bytes.len(), "size, {job:?}");
    let pixels = &bytes[job.offset..];
    let mut out = vec![0xA5; bytes.len()];
    let number = bore::write_job(&job.filter, job.width, job.height, pixels, &mut out);
    assert_eq!(number, 0, "written again, {job:?}");
    assert!(out == bytes, "written again, {job:?}");
}

/// The file that was written for this picture has the same recipe, sides and
/// pixels.
fn read_back(bytes: &[u8], case: &Case, random: &mut Random, picture: &Picture) {
    let mut job = any_job(random);
    assert_eq!(bore::read_job(bytes, &mut job), 0, "read back, {case:?}");
    let recipe = case.recipe();
    let expected = Job {
        filter: filter_of(&recipe),
        width: picture.width,
        height: picture.height,
        offset: bytes.len() - picture.pixels.len(),
    };
    let [found, expected] = [&job, &expected].map(fields_of_job);
    assert_eq!(found, expected, "read back, {case:?}");
    let pixels = reference::pixels_of(&bytes[job.offset..]);
    assert!(pixels == picture.pixels, "pixels read back, {case:?}");
}

/// The reading of these bytes.
pub fn read(random: &mut Random, bytes: &[u8]) -> u8 {
    let expected = reference::read_job(bytes);
    let lent = Lent::bytes(random, bytes);
    let jobs = [(); 3].map(|_| any_job(random));
    let mut left = jobs;
    left[1] = job_of(expected.as_ref().unwrap_or(&reference::Job::default()));
    let given = lent.clone();
    let mut found = jobs;
    let refusal = bore::read_job(given.part(), &mut found[1]);
    let front = &bytes[..bytes.len().min(111)];
    let note = format_args!("job of {} bytes, {front:?}", bytes.len());
    assert_eq!(refusal, number(&expected), "{note}");
    let [fields, left] = [&found, &left].map(|jobs| jobs.each_ref().map(fields_of_job));
    assert_eq!(fields, left, "{note}");
    given.has_to_be(&lent, "job", note);
    if refusal == 0 {
        written_again(bytes, &found[1]);
    }
    number(&expected)
}

/// The writing of this picture to an output of this length.
pub fn write(case: &Case, random: &mut Random, picture: &Picture, out_len: usize) -> u8 {
    let (width, height) = (picture.width, picture.height);
    let recipe = case.recipe();
    let expected = reference::write_job(&recipe, width, height, &picture.pixels, out_len);
    let pixels = Lent::bytes(random, &narrow(&picture.pixels));
    let lent = Lent::any_bytes(random, out_len);
    let mut left = lent.clone();
    if let Ok(bytes) = &expected {
        left.set(bytes);
    }
    for filter in case.both() {
        let given = pixels.clone();
        let mut found = lent.clone();
        let refusal = bore::write_job(filter, width, height, given.part(), found.part_mut());
        let note = format_args!(
            "{width} by {height}, {} pixels, length {out_len}, {case:?}",
            pixels.length()
        );
        assert_eq!(refusal, number(&expected), "{note}");
        found.has_to_be(&left, "job", note);
        given.has_to_be(&pixels, "pixels", note);
        if refusal == 0 {
            read_back(found.part(), case, random, picture);
        }
    }
    number(&expected)
}

/// The length of a job with a picture of these sides.
pub fn size(case: &Case, random: &mut Random, width: usize, height: usize) -> u8 {
    let expected = reference::job_length(&case.recipe(), width, height);
    let words = [(); 3].map(|_| random.word() as usize);
    let mut left = words;
    if let Ok(size) = expected {
        left[1] = size;
    }
    for filter in case.both() {
        let mut found = words;
        let refusal = bore::job_size(filter, width, height, &mut found[1]);
        let note = format_args!("job size of {width} by {height}, {case:?}");
        assert_eq!(refusal, number(&expected), "{note}");
        assert_eq!(found, left, "{note}");
    }
    number(&expected)
}
