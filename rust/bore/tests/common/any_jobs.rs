//! Random job files: in order, damaged, or made of parts that do not fit.

use super::job_parts::Parts;
use super::pictures::{any_picture, any_sides, picture_filter};
use super::{any_filter, narrow, recipe_of};
use reference::random::Random;

/// Changes one part of a job.
fn damage(random: &mut Random, parts: &mut Parts) {
    let any = random.word();
    let axis = random.between(0, 1);
    match random.between(0, 5) {
        0 => {
            let letter = random.between(0, 2);
            parts.mark[letter] = random.one_of(&[0, b'b', b'o', b'r', b'B', any as u8]);
        }
        1 => parts.version = random.one_of(&[0, 2, 256, 257, any as u16]),
        2 => parts.counts[axis] = random.one_of(&[0, 1, 47, 48, 49, 50, 255, any as u8]),
        3 => {
            let list = &mut parts.lists[axis];
            if !list.is_empty() {
                let at = random.between(0, list.len() - 1);
                list[at] = random.one_of(&[0, 1, 2, 255, any as u8]);
            }
        }
        4 => {
            let swapped = parts.sides[axis].swap_bytes();
            let sides = [0, 1, 1024, 1025, 65_535, swapped, swapped, any as u16];
            parts.sides[axis] = random.one_of(&sides);
        }
        _ => parts.lists.swap(0, 1),
    }
}

/// A job made of parts that are mostly right, whole, cut or with bytes added.
fn job_of_parts(random: &mut Random) -> Vec<u8> {
    let filter = match random.coin() {
        true => picture_filter(random),
        false => any_filter(random),
    };
    let (width, height) = any_sides(random, &recipe_of(&filter));
    let picture = any_picture(random, width, height);
    let sides = [width, height].map(|side| side as u16);
    let mut parts = Parts::of_filter(&filter, sides, picture.pixels);
    for _ in 0..random.one_of(&[0, 0, 0, 1, 1, 2]) {
        damage(random, &mut parts);
    }
    let mut bytes = parts.bytes();
    match random.between(0, 11) {
        0 => bytes.truncate(random.between(0, bytes.len())),
        1 => bytes.truncate(random.between(0, parts.offset())),
        2 => {
            let more = random.between(1, 9);
            bytes.extend(narrow::<_, u8>(&random.pixels(more)));
        }
        _ => (),
    }
    bytes
}

/// A job in order for which the program's 8,192 cells are just enough or just
/// too few.
fn job_of_many_cells(random: &mut Random) -> Vec<u8> {
    let n = random.between(9, 255);
    let (width, height) = (8192 / n + random.between(0, 1), random.between(1, 3));
    let rows: &[u8] = random.one_of(&[&[], &[1], &[2]]);
    let sides = [width, height].map(|side| side as u16);
    let pixels = random.pixels(width * height);
    Parts::new(rows, &[n as u8], sides, pixels).bytes()
}

/// The bytes of a seed, and its generator for further choices.
pub fn any_bytes(seed: u64) -> (Vec<u8>, Random) {
    let mut random = Random::new(seed);
    let bytes = match random.between(0, 7) {
        0 => random.job(12, 40),
        1 => random.job(30, 12),
        2 => random.damaged_job(12, 40),
        3 => job_of_many_cells(&mut random),
        _ => job_of_parts(&mut random),
    };
    (bytes, random)
}
