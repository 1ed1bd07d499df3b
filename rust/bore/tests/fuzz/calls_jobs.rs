//! The calls of the crate job_c. The unsafe blocks rest on what
//! `calls_filter` says.

use crate::common::agree::number;
use crate::common::any_jobs::any_bytes;
use crate::common::pictures::Picture;
use crate::common::{any_state, filter_of, narrow, recipe_of};
use crate::draw;
use crate::trial::Trial;
use bore::raw;
use reference::random::Random;

/// The bytes of a job: in order, damaged, cut, or random, these with the right
/// mark and version or without.
fn job(random: &mut Random) -> Vec<u8> {
    let (mut bytes, mut other) = any_bytes(random.word());
    match other.between(0, 15) {
        0 => bytes.iter_mut().for_each(|byte| *byte = other.word() as u8),
        1 => bytes
            .iter_mut()
            .skip(5)
            .for_each(|byte| *byte = other.word() as u8),
        2 => bytes.truncate(other.between(0, bytes.len())),
        _ => (),
    }
    bytes
}

/// The reading leaves a recipe and three words, of zeros where it is refused.
pub fn read_job(trial: &mut Trial) -> u8 {
    let bytes = job(&mut trial.random);
    let expected = reference::read_job(&bytes);
    let read = expected.clone().unwrap_or_default();
    let left = filter_of(&read.recipe);
    let given = any_state(&mut trial.random);
    let words = [given.width, given.height, given.emitted];
    let job = trial.give(&bytes);
    let block = trial.lend(&[given.filter], &[left]);
    let words = trial.lend(&[words], &[[read.w, read.h, read.offset]]);
    let found = unsafe { raw::bore_read_job(job, bytes.len(), block, words) };
    trial.agree(found, number(&expected), format_args!("{bytes:?}"))
}

pub fn job_size(trial: &mut Trial) -> u8 {
    let filter = draw::any_block(&mut trial.random);
    let [width, height] = [(); 2].map(|_| draw::any_side(&mut trial.random));
    let expected = reference::job_length(&recipe_of(&filter), width, height);
    let block = trial.give(&[filter]);
    let size = trial.lend_any(1, expected.ok().as_slice());
    let found = unsafe { raw::bore_job_size(&*block, width, height, &mut *size) };
    let note = format_args!("{width} by {height}, {filter:?}");
    trial.agree(found, number(&expected), note)
}

pub fn write_job(trial: &mut Trial) -> u8 {
    let filter = draw::any_block(&mut trial.random);
    let recipe = recipe_of(&filter);
    let picture = draw::picture(&mut trial.random, &recipe, usize::MAX);
    let Picture { width, height, .. } = picture;
    let lists = recipe.rows.len() + recipe.columns.len();
    let right = draw::size(&picture).wrapping_add(11 + lists);
    let out_len = draw::length(&mut trial.random, right);
    let expected = reference::write_job(&recipe, width, height, &picture.pixels, out_len);
    let left = expected.as_deref().unwrap_or(&[]);
    let block = trial.give(&[filter]);
    let (p, p_len) = (trial.give(&narrow(&picture.pixels)), picture.pixels.len());
    let out = trial.lend_any(out_len, left);
    let found = unsafe { raw::bore_write_job(&*block, width, height, p, p_len, out, out_len) };
    let note = format_args!("{filter:?}, {picture:?}, length {out_len}");
    trial.agree(found, number(&expected), note)
}
