//! The calls of the crate sums_c on whole pictures: direct and pass by pass.
//! The unsafe blocks rest on what `calls_filter` says.

use crate::common::agree::number;
use crate::common::narrow;
use crate::common::pictures::Picture;
use crate::draw;
use crate::trial::Trial;
use bore::raw;
use reference::reach;

pub fn direct(trial: &mut Trial) -> u8 {
    let (filter, recipe, picture) = draw::filter_and_picture(&mut trial.random);
    let Picture { width, height, .. } = picture;
    let right = [
        reach(&recipe.rows) + 1,
        reach(&recipe.columns) + 1,
        draw::grown_size(&recipe, &picture),
    ];
    let lengths = right.map(|right| draw::length(&mut trial.random, right));
    let [r_len, c_len, out_len] = lengths;
    let pixels = &picture.pixels;
    let expected = reference::direct(&recipe, width, height, pixels, r_len, c_len, out_len);
    let left = match &expected {
        Ok(output) => [&output.r[..], &output.c, &output.sums],
        Err(_) => [&[][..]; 3],
    };
    let block = trial.give(&[filter]);
    let p = trial.give(&narrow(pixels));
    let r = trial.lend_any(r_len, left[0]);
    let c = trial.lend_any(c_len, left[1]);
    let out = trial.lend_any(out_len, left[2]);
    let p_len = pixels.len();
    let found = unsafe {
        raw::bore_direct(
            &*block, width, height, p, p_len, r, r_len, c, c_len, out, out_len,
        )
    };
    let note = format_args!("{filter:?}, {picture:?}, lengths {lengths:?}");
    trial.agree(found, number(&expected), note)
}

pub fn passes(trial: &mut Trial) -> u8 {
    let (filter, recipe, picture) = draw::filter_and_picture(&mut trial.random);
    let Picture { width, height, .. } = picture;
    let size = draw::grown_size(&recipe, &picture);
    let out_len = draw::length(&mut trial.random, size);
    let cells_len = draw::cells(&mut trial.random, size);
    let pixels = &picture.pixels;
    let expected = reference::pass_by_pass(&recipe, width, height, pixels, out_len, cells_len);
    let left = expected.as_deref().unwrap_or(&[]);
    let block = trial.give(&[filter]);
    let p = trial.give(&narrow(pixels));
    let out = trial.lend_any(out_len, left);
    let cells = trial.lend_free(cells_len, left.len());
    let p_len = pixels.len();
    let found = unsafe {
        raw::bore_passes(
            &*block, width, height, p, p_len, out, out_len, cells, cells_len,
        )
    };
    let note = format_args!("{filter:?}, {picture:?}, lengths {out_len}, {cells_len}");
    trial.agree(found, number(&expected), note)
}
