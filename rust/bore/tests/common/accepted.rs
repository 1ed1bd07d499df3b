//! Calls that have to be accepted, for tests that look at the answers alone.

use super::three::BEFORE;
use super::{narrow, recipe_of};
use bore::{Filter, Moments, Quantity, Sample};

/// The answer of the comparing call. The lent byte is no answer before the call
/// and has to be one after it.
pub fn equal(a: &Filter, b: &Filter) -> bool {
    let mut same = 0xA5;
    assert_eq!(bore::equivalent(a, b, &mut same), 0, "{a:?}, {b:?}");
    assert!(same <= 1, "{same}, {a:?}, {b:?}");
    same == 1
}

/// The scale card.
pub fn moments(filter: &Filter) -> Moments {
    let mut moments = Moments::default();
    assert_eq!(bore::moments(filter, &mut moments), 0, "{filter:?}");
    moments
}

/// The greys of a row of sums, and their leftovers.
pub fn round(filter: &Filter, sums: &[u64]) -> (Vec<u64>, Vec<i64>) {
    let mut out = vec![BEFORE as u8; sums.len()];
    let mut leftovers = vec![BEFORE as i64; sums.len()];
    let number = bore::round(filter, sums, &mut out, &mut leftovers);
    assert_eq!(number, 0, "{filter:?}");
    (out.into_iter().map(u64::from).collect(), leftovers)
}

/// The same-size blur, with just as many cells as it needs: the greys and their
/// leftovers.
pub fn blur(filter: &Filter, width: usize, height: usize, pixels: &[u64]) -> (Vec<u64>, Vec<i64>) {
    let needed = reference::same_size_cells(&recipe_of(filter), width, height);
    let mut cells = vec![BEFORE; needed.expect("the recipe and the sides are accepted")];
    let mut out = vec![BEFORE as u8; width * height];
    let mut leftovers = vec![BEFORE as i64; width * height];
    let pixels: Vec<u8> = narrow(pixels);
    let (outs, rest) = (&mut out, &mut leftovers);
    let number = bore::blur(filter, width, height, &pixels, outs, rest, &mut cells);
    assert_eq!(number, 0, "{width} by {height}, {filter:?}");
    (out.into_iter().map(u64::from).collect(), leftovers)
}

/// The difference, with just as many cells as it needs.
pub fn difference([a, b]: [&Filter; 2], width: usize, height: usize, pixels: &[u64]) -> Vec<i64> {
    let needed = reference::difference_cells(&recipe_of(a), &recipe_of(b), width, height);
    let mut cells = vec![BEFORE; needed.expect("the recipes and the sides are accepted")];
    let mut out = vec![BEFORE as i16; width * height];
    let pixels: Vec<u8> = narrow(pixels);
    let number = bore::difference(a, b, width, height, &pixels, &mut out, &mut cells);
    assert_eq!(number, 0, "{width} by {height}, {a:?}, {b:?}");
    out.into_iter().map(i64::from).collect()
}

/// The reading of a quantity.
pub fn sample(
    filter: &Filter,
    width: usize,
    height: usize,
    pixels: &[u64],
    place: (usize, usize),
    quantity: Quantity,
) -> Sample {
    let mut sample = Sample::Sum(BEFORE);
    let pixels: Vec<u8> = narrow(pixels);
    let number = bore::sample(filter, width, height, &pixels, place, quantity, &mut sample);
    assert_eq!(number, 0, "{place:?}, {width} by {height}, {filter:?}");
    sample
}
