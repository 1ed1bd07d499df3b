//! The methods "direct" and "pass by pass" beside the reference, one function
//! for each: it makes the call for a case's filter and for the twin, compares
//! the number and all that was lent, and returns the number.

use super::agree::number;
use super::lent::Lent;
use super::pictures::Picture;
use super::{narrow, Case};
use reference::random::Random;
use reference::DirectOutput;

/// The direct method with slices of these lengths for the coefficients of the
/// rows, those of the columns, and the sums.
pub fn direct(case: &Case, random: &mut Random, picture: &Picture, lengths: [usize; 3]) -> u8 {
    let [r_len, c_len, out_len] = lengths;
    let (width, height) = (picture.width, picture.height);
    let pixels = &picture.pixels;
    let expected = reference::direct(&case.recipe(), width, height, pixels, r_len, c_len, out_len);
    let pixels = Lent::bytes(random, &narrow(pixels));
    let lent = lengths.map(|length| Lent::words(random, length));
    let mut left = lent.clone();
    if let Ok(DirectOutput { r, c, sums }) = &expected {
        left[0].set(r);
        left[1].set(c);
        left[2].set(sums);
    }
    for filter in case.both() {
        let mut found = lent.clone();
        let given = pixels.clone();
        let [r, c, out] = found.each_mut().map(Lent::part_mut);
        let refusal = bore::direct(filter, width, height, given.part(), r, c, out);
        let note = format_args!("{width} by {height}, lengths {lengths:?}, {case:?}");
        assert_eq!(refusal, number(&expected), "direct, {note}");
        for (part, what) in ["R", "C", "sums"].into_iter().enumerate() {
            found[part].has_to_be(&left[part], what, note);
        }
        given.has_to_be(&pixels, "pixels", note);
    }
    number(&expected)
}

/// Pass by pass with an output and work cells of these lengths. Of an accepted
/// call's cells as many are free as there are sums; they have to be the same
/// for filter and twin.
pub fn passes(case: &Case, random: &mut Random, picture: &Picture, lengths: [usize; 2]) -> u8 {
    let [out_len, cells_len] = lengths;
    let (width, height) = (picture.width, picture.height);
    let pixels = &picture.pixels;
    let recipe = case.recipe();
    let expected = reference::pass_by_pass(&recipe, width, height, pixels, out_len, cells_len);
    let pixels = Lent::bytes(random, &narrow(pixels));
    let lent = lengths.map(|length| Lent::words(random, length));
    let mut left = lent.clone();
    if let Ok(sums) = &expected {
        left[0].set(sums);
    }
    for (place, filter) in case.both().into_iter().enumerate() {
        let mut found = lent.clone();
        let given = pixels.clone();
        let [out, cells] = found.each_mut().map(Lent::part_mut);
        let refusal = bore::passes(filter, width, height, given.part(), out, cells);
        let note = format_args!("{width} by {height}, lengths {lengths:?}, {case:?}");
        assert_eq!(refusal, number(&expected), "pass by pass, {note}");
        if place == 0 && refusal == 0 {
            left[1].set(&found[1].part()[..out_len]);
        }
        found[0].has_to_be(&left[0], "sums", note);
        found[1].has_to_be(&left[1], "cells", note);
        given.has_to_be(&pixels, "pixels", note);
    }
    number(&expected)
}
