//! The three methods with buffers of just the right lengths, for tests that
//! look at the sums of a picture alone.

use super::{any_state, narrow, recipe_of};
use bore::Filter;
use reference::random::Random;

/// What stands in every buffer before a call.
pub const BEFORE: u64 = 0xA5A5_A5A5_A5A5_A5A5;

/// The sums, or the number.
pub type Sums = Result<Vec<u64>, u8>;

fn accepted(number: u8) -> Result<(), u8> {
    if number == 0 {
        Ok(())
    } else {
        Err(number)
    }
}

/// A buffer of this length; an empty one where the recipe or the sides are
/// refused.
fn buffer(length: Result<usize, u8>) -> Vec<u64> {
    vec![BEFORE; length.unwrap_or(0)]
}

fn direct(filter: &Filter, width: usize, height: usize, pixels: &[u8]) -> Sums {
    let recipe = recipe_of(filter);
    let mut out = buffer(reference::grown_size(&recipe, width, height));
    let mut r = buffer(Ok(reference::reach(&recipe.rows) + 1));
    let mut c = buffer(Ok(reference::reach(&recipe.columns) + 1));
    let number = bore::direct(filter, width, height, pixels, &mut r, &mut c, &mut out);
    accepted(number)?;
    Ok(out)
}

pub fn passes(filter: &Filter, width: usize, height: usize, pixels: &[u8]) -> Sums {
    let mut out = buffer(reference::grown_size(&recipe_of(filter), width, height));
    let mut cells = out.clone();
    let number = bore::passes(filter, width, height, pixels, &mut out, &mut cells);
    accepted(number)?;
    Ok(out)
}

/// The rows and drains of the one pass, whose start has to be accepted.
pub fn stream(filter: &Filter, width: usize, height: usize, pixels: &[u8]) -> Sums {
    let recipe = recipe_of(filter);
    let mut cells = buffer(reference::needed_cells(&recipe, width));
    let mut state = any_state(&mut Random::new(1));
    accepted(bore::start(filter, width, height, &mut cells, &mut state))?;
    let mut out = buffer(reference::grown_size(&recipe, width, height));
    let mut rows = pixels.chunks(width);
    let mut count = 0;
    for row in out.chunks_mut(width + reference::reach(&recipe.rows)) {
        let number = match rows.next() {
            Some(pixels) => bore::push(&mut state, pixels, row, &mut cells, &mut count),
            None => bore::drain(&mut state, row, &mut cells, &mut count),
        };
        accepted(number)?;
    }
    Ok(out)
}

/// The sums of a picture, or the number, by each method: direct, pass by pass,
/// one pass.
pub fn each_method(filter: &Filter, width: usize, height: usize, pixels: &[u64]) -> [Sums; 3] {
    let pixels: Vec<u8> = narrow(pixels);
    let methods = [direct, passes, stream];
    methods.map(|method| method(filter, width, height, &pixels))
}

/// The sums of a picture, or the number, which has to be the same by all three
/// methods.
pub fn three_methods(filter: &Filter, width: usize, height: usize, pixels: &[u64]) -> Sums {
    let [found, by_passes, by_stream] = each_method(filter, width, height, pixels);
    let note = format_args!("{width} by {height}, {filter:?}");
    assert!(by_passes == found, "direct, pass by pass: {note}");
    assert!(by_stream == found, "direct, one pass: {note}");
    found
}
