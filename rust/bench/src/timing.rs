//! Times of several sides that run in alternation, so that what else the
//! machine does falls on all of them.

use std::time::{Duration, Instant};

/// The rounds are at least this many,
const FEWEST: usize = 5;
/// at most this many,
const MOST: usize = 200;
/// and between these they go on for this time.
const ENOUGH: Duration = Duration::from_secs(2);

/// The least time of each side in milliseconds. Each side runs once before the
/// times are taken.
pub fn alternate<const N: usize>(mut sides: [&mut dyn FnMut(); N]) -> [f64; N] {
    for side in &mut sides {
        side();
    }
    let mut least = [f64::INFINITY; N];
    let begin = Instant::now();
    for round in 0..MOST {
        if round >= FEWEST && begin.elapsed() > ENOUGH {
            break;
        }
        for (side, least) in sides.iter_mut().zip(&mut least) {
            let start = Instant::now();
            side();
            *least = least.min(start.elapsed().as_secs_f64() * 1000.0);
        }
    }
    least
}
