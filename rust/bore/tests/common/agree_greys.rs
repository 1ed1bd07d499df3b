//! Rounding, the same-size blur, the difference and the readings beside the
//! reference, one function for each: it makes the call for a case's filter and
//! for the twin, compares the number and all that was lent, and returns the
//! number.

use super::agree::number;
use super::lent::Lent;
use super::pictures::Picture;
use super::{narrow, Case};
use bore::{Quantity, Sample};
use reference::random::Random;
use reference::{Choice, Reading, Rounded};
use std::fmt::Arguments;

/// The outputs of rounding, for greys and for leftovers.
#[derive(Clone)]
struct Outputs {
    grays: Lent<u8>,
    leftovers: Lent<i64>,
}

impl Outputs {
    /// Random values, of which so many are lent.
    fn any(random: &mut Random, [grays, leftovers]: [usize; 2]) -> Outputs {
        Outputs {
            grays: Lent::any_bytes(random, grays),
            leftovers: Lent::signed_words(random, leftovers),
        }
    }

    /// What an accepted call leaves, or on a refusal these values.
    fn left(&self, expected: &Result<Rounded, u8>) -> Outputs {
        let mut left = self.clone();
        if let Ok(Rounded { greys, leftovers }) = expected {
            left.grays.set(&narrow(greys));
            left.leftovers.set(leftovers);
        }
        left
    }

    fn has_to_be(&self, expected: &Outputs, note: Arguments) {
        self.grays.has_to_be(&expected.grays, "greys", note);
        self.leftovers
            .has_to_be(&expected.leftovers, "leftovers", note);
    }
}

/// The rounding of these sums to outputs of these lengths.
pub fn round(case: &Case, random: &mut Random, sums: &[u64], out_lens: [usize; 2]) -> u8 {
    let expected = reference::round_row(&case.recipe(), sums, out_lens);
    let mut row = Lent::words(random, sums.len());
    row.set(sums);
    let lent = Outputs::any(random, out_lens);
    let left = lent.left(&expected);
    for filter in case.both() {
        let mut found = lent.clone();
        let given = row.clone();
        let (grays, leftovers) = (found.grays.part_mut(), found.leftovers.part_mut());
        let refusal = bore::round(filter, given.part(), grays, leftovers);
        let note = format_args!("{} sums, lengths {out_lens:?}, {case:?}", sums.len());
        assert_eq!(refusal, number(&expected), "rounding, {note}");
        found.has_to_be(&left, note);
        given.has_to_be(&row, "sums", note);
    }
    number(&expected)
}

/// What a blur or a difference is lent: a picture, its outputs, and work cells.
#[derive(Clone)]
struct Buffers<T> {
    pixels: Lent<u8>,
    out: T,
    cells: Lent<u64>,
}

impl<T: Clone> Buffers<T> {
    /// Makes calls with these buffers, as many as there are turns. The number
    /// has to be this one, and the outputs have to pass the test. The first
    /// cells of an accepted call are free; they have to be the same after every
    /// turn.
    fn agree(
        &self,
        expected: u8,
        free: usize,
        turns: usize,
        call: impl Fn(usize, &mut Buffers<T>) -> u8,
        test: impl Fn(&T),
        note: Arguments,
    ) {
        let mut left = self.clone();
        for turn in 0..turns {
            let mut found = self.clone();
            let refusal = call(turn, &mut found);
            assert_eq!(refusal, expected, "{note}");
            if turn == 0 && refusal == 0 {
                left.cells.set(&found.cells.part()[..free]);
            }
            test(&found.out);
            found.cells.has_to_be(&left.cells, "cells", note);
            found.pixels.has_to_be(&left.pixels, "pixels", note);
        }
    }
}

/// The same-size blur with outputs for greys and leftovers and work cells of
/// these lengths.
pub fn blur(case: &Case, random: &mut Random, picture: &Picture, lengths: [usize; 3]) -> u8 {
    let [grays_len, leftovers_len, cells_len] = lengths;
    let out_lens = [grays_len, leftovers_len];
    let (width, height) = (picture.width, picture.height);
    let pixels = &picture.pixels;
    let recipe = case.recipe();
    let expected = reference::same_size_blur(&recipe, width, height, pixels, out_lens, cells_len);
    let needed = reference::same_size_cells(&recipe, width, height);
    let lent = Buffers {
        pixels: Lent::bytes(random, &narrow(pixels)),
        out: Outputs::any(random, out_lens),
        cells: Lent::words(random, cells_len),
    };
    let left = lent.out.left(&expected);
    let call = |turn: usize, lent: &mut Buffers<Outputs>| {
        let (grays, leftovers) = (lent.out.grays.part_mut(), lent.out.leftovers.part_mut());
        let (filter, p) = (case.both()[turn], lent.pixels.part());
        let cells = lent.cells.part_mut();
        bore::blur(filter, width, height, p, grays, leftovers, cells)
    };
    let note = format_args!("blur of {width} by {height}, lengths {lengths:?}, {case:?}");
    let test = |found: &Outputs| found.has_to_be(&left, note);
    lent.agree(number(&expected), needed.unwrap_or(0), 2, call, test, note);
    number(&expected)
}

/// The difference of two cases, either filter of the one beside either of the
/// other, with an output and work cells of these lengths.
pub fn difference(
    [a, b]: [&Case; 2],
    random: &mut Random,
    picture: &Picture,
    lengths: [usize; 2],
) -> u8 {
    let [out_len, cells_len] = lengths;
    let (width, height) = (picture.width, picture.height);
    let pixels = &picture.pixels;
    let [x, y] = [a, b].map(Case::recipe);
    let expected = reference::difference(&x, &y, width, height, pixels, out_len, cells_len);
    let needed = reference::difference_cells(&x, &y, width, height);
    let lent = Buffers {
        pixels: Lent::bytes(random, &narrow(pixels)),
        out: Lent::signed(random, out_len),
        cells: Lent::words(random, cells_len),
    };
    let mut left = lent.out.clone();
    if let Ok(differences) = &expected {
        left.set(&narrow(differences));
    }
    let call = |turn: usize, lent: &mut Buffers<Lent<i16>>| {
        let (out, cells) = (lent.out.part_mut(), lent.cells.part_mut());
        let (a, b) = (a.both()[turn / 2], b.both()[turn % 2]);
        bore::difference(a, b, width, height, lent.pixels.part(), out, cells)
    };
    let note = format_args!("difference on {width} by {height}, lengths {lengths:?}, {a:?}, {b:?}");
    let test = |found: &Lent<i16>| found.has_to_be(&left, "output", note);
    lent.agree(number(&expected), needed.unwrap_or(0), 4, call, test, note);
    number(&expected)
}

/// The library's form of a reading.
fn sample_of(reading: Reading) -> Sample {
    match reading {
        Reading::Grey(gray, leftover) => Sample::Gray {
            gray: u8::try_from(gray).expect("a grey is a byte"),
            leftover,
        },
        Reading::Sum(sum) => Sample::Sum(sum),
        Reading::Quotient(mean) => Sample::Mean(mean),
    }
}

/// The kind and the bits of a reading, so that floats are compared by their
/// bits; for a grey its leftover besides.
fn bits(sample: Sample) -> (Quantity, u64, i64) {
    match sample {
        Sample::Gray { gray, leftover } => (Quantity::Gray, gray.into(), leftover),
        Sample::Sum(sum) => (Quantity::Sum, sum, 0),
        Sample::Mean(mean) => (Quantity::Mean, mean.to_bits(), 0),
    }
}

/// A grey and its leftover.
fn shade((gray, leftover): (u8, i64)) -> Sample {
    Sample::Gray { gray, leftover }
}

/// Makes a call that writes the second of three values.
fn read<T: Copy>(
    mut values: [T; 3],
    sample: fn(T) -> Sample,
    expected: &Result<Sample, u8>,
    call: impl Fn(&mut T) -> u8,
    note: Arguments,
) {
    let mut left = values.map(sample);
    if let Ok(sample) = *expected {
        left[1] = sample;
    }
    let refusal = call(&mut values[1]);
    assert_eq!(refusal, number(expected), "{note}");
    assert_eq!(values.map(sample).map(bits), left.map(bits), "{note}");
}

fn any_sample(random: &mut Random) -> Sample {
    let word = random.word();
    random.one_of(&[
        shade((word as u8, !word as i64)),
        Sample::Sum(word),
        Sample::Mean(f64::from_bits(word)),
    ])
}

/// The reading of each quantity at this place, by its own call and by choice.
pub fn sample(case: &Case, random: &mut Random, picture: &Picture, place: (usize, usize)) -> u8 {
    let (w, h) = (picture.width, picture.height);
    let pixels = Lent::bytes(random, &narrow(&picture.pixels));
    let given = pixels.clone();
    let p = given.part();
    let note = format_args!("reading at {place:?} of {w} by {h}, {case:?}");
    let [gray, sum, mean] = [Choice::Grey, Choice::Sum, Choice::Quotient].map(|choice| {
        let reading = reference::reading(&case.recipe(), w, h, &picture.pixels, place, choice);
        reading.map(sample_of)
    });
    for f in case.both() {
        for (quantity, expected) in [
            (Quantity::Gray, &gray),
            (Quantity::Sum, &sum),
            (Quantity::Mean, &mean),
        ] {
            let samples = [(); 3].map(|_| any_sample(random));
            let by_choice = |v: &mut Sample| bore::sample(f, w, h, p, place, quantity, v);
            read(samples, |sample| sample, expected, by_choice, note);
        }
        let words = [(); 3].map(|_| random.word());
        let shades = words.map(|word| (word as u8, word as i64));
        let call = |v: &mut (u8, i64)| bore::sample_gray(f, w, h, p, place, &mut v.0, &mut v.1);
        read(shades, shade, &gray, call, note);
        let call = |v: &mut u64| bore::sample_sum(f, w, h, p, place, v);
        read(words, Sample::Sum, &sum, call, note);
        let call = |v: &mut f64| bore::sample_mean(f, w, h, p, place, v);
        read(words.map(f64::from_bits), Sample::Mean, &mean, call, note);
    }
    given.has_to_be(&pixels, "pixels", note);
    number(&gray)
}
