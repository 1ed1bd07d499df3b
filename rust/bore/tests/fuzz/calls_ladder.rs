//! The calls of the crate ladder_c. The unsafe block rests on what
//! `calls_filter` says.

use crate::common::agree::number;
use crate::common::agree_ladder::{any_level, reference_axes, some_recipe};
use crate::common::narrow;
use crate::common::pictures::Picture;
use crate::draw;
use crate::trial::Trial;
use bore::{raw, Axes};
use reference::Recipe;

/// The call on these axes. For a level that is refused the lengths go by the
/// recipe of any other.
fn ladder(trial: &mut Trial, axes: Axes) -> u8 {
    let level = any_level(&mut trial.random);
    let recipe = some_recipe(&mut trial.random, level, axes);
    // The reference forms no products here, so none have to be bounded.
    let picture = draw::picture(&mut trial.random, &Recipe::default(), usize::MAX);
    let Picture { width, height, .. } = picture;
    let size = draw::grown_size(&recipe, &picture);
    let out_len = draw::length(&mut trial.random, size);
    let cells_len = draw::cells(&mut trial.random, size);
    let (pixels, on_axes) = (&picture.pixels, reference_axes(axes));
    let expected = reference::ladder(level, on_axes, width, height, pixels, out_len, cells_len);
    let left = expected.as_deref().unwrap_or(&[]);
    let p = trial.give(&narrow(pixels));
    let out = trial.lend_any(out_len, left);
    let cells = trial.lend_free(cells_len, left.len());
    let p_len = pixels.len();
    let call = match axes {
        Axes::Rows => raw::bore_ladder_rows,
        Axes::Both => raw::bore_ladder_both,
    };
    let found = unsafe {
        call(
            level, width, height, p, p_len, out, out_len, cells, cells_len,
        )
    };
    let note = format_args!("level {level}, {picture:?}, lengths {out_len}, {cells_len}");
    trial.agree(found, number(&expected), note)
}

pub fn ladder_rows(trial: &mut Trial) -> u8 {
    ladder(trial, Axes::Rows)
}

pub fn ladder_both(trial: &mut Trial) -> u8 {
    ladder(trial, Axes::Both)
}
