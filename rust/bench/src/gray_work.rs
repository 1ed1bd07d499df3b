//! A square picture or a row of sums with one recipe or two and the buffers of
//! rounding, the same-size blur, the difference and the readings, and the
//! library's calls on them.

use crate::work::{cascade, noise, reach};
use bore::{Filter, Moments, Quantity, Sample};
use std::hint::black_box;

/// A recipe and what the calls have to know of it.
#[derive(Clone)]
pub struct Recipe {
    pub filter: Filter,
    pub rows: Vec<u8>,
    pub columns: Vec<u8>,
    pub weight: u64,
    pub full_width: usize,
    /// The grown size.
    pub full_size: usize,
    /// The cells that the one pass needs.
    pub needed: usize,
}

impl Recipe {
    /// An accepted recipe for a picture of this side.
    fn new(rows: &[u8], columns: &[u8], side: usize) -> Recipe {
        let filter = Filter {
            rows: cascade(rows),
            columns: cascade(columns),
        };
        let mut moments = Moments::default();
        let mut needed = 0;
        assert_eq!(bore::moments(&filter, &mut moments), 0);
        assert_eq!(bore::stream_cells(&filter, side, &mut needed), 0);
        let full_width = side + reach(rows);
        Recipe {
            filter,
            rows: rows.to_vec(),
            columns: columns.to_vec(),
            weight: moments.gain,
            full_width,
            full_size: full_width * (side + reach(columns)),
            needed,
        }
    }
}

/// A recipe and a row of sums with the outputs of rounding.
#[derive(Clone)]
pub struct Rounding {
    pub recipe: Recipe,
    pub sums: Vec<u64>,
    pub out: Vec<u8>,
    pub leftovers: Vec<i64>,
}

impl Rounding {
    /// As many sums as a picture of this side has pixels, spread over all that
    /// are accepted.
    pub fn new(rows: &[u8], columns: &[u8], side: usize) -> Rounding {
        let recipe = Recipe::new(rows, columns, side);
        let (size, most) = (side * side, 255 * recipe.weight);
        let spread = |k: usize| (k as u64).wrapping_mul(0x9E37_79B9_7F4A_7C15) % (most + 1);
        Rounding {
            recipe,
            sums: (0..size).map(spread).collect(),
            out: vec![0; size],
            leftovers: vec![0; size],
        }
    }

    pub fn by_library(&mut self) {
        let Rounding { recipe, sums, .. } = self;
        let number = bore::round(&recipe.filter, sums, &mut self.out, &mut self.leftovers);
        assert_eq!(number, 0, "the rounding is accepted");
    }
}

/// A recipe and a picture with the buffers of a blur.
#[derive(Clone)]
pub struct Blur {
    pub recipe: Recipe,
    pub side: usize,
    pub pixels: Vec<u8>,
    pub out: Vec<u8>,
    pub leftovers: Vec<i64>,
    pub cells: Vec<u64>,
}

impl Blur {
    pub fn new(rows: &[u8], columns: &[u8], side: usize) -> Blur {
        let recipe = Recipe::new(rows, columns, side);
        Blur {
            side,
            pixels: noise(side * side),
            out: vec![0; side * side],
            leftovers: vec![0; side * side],
            cells: vec![0; 2 * recipe.full_size],
            recipe,
        }
    }

    pub fn by_library(&mut self) {
        let number = bore::blur(
            &self.recipe.filter,
            self.side,
            self.side,
            &self.pixels,
            &mut self.out,
            &mut self.leftovers,
            &mut self.cells,
        );
        assert_eq!(number, 0, "the blur is accepted");
    }

    /// The grey in the middle of the picture, by a reading.
    pub fn middle(&self) -> u8 {
        let mut sample = Sample::Sum(0);
        let number = bore::sample(
            &self.recipe.filter,
            self.side,
            self.side,
            black_box(&self.pixels),
            (self.side / 2, self.side / 2),
            Quantity::Gray,
            &mut sample,
        );
        match (number, sample) {
            (0, Sample::Gray { gray, .. }) => gray,
            other => panic!("{other:?} in place of a grey"),
        }
    }
}

/// Two recipes and a picture with the buffers of a difference.
#[derive(Clone)]
pub struct Difference {
    pub a: Recipe,
    pub b: Recipe,
    pub side: usize,
    pub pixels: Vec<u8>,
    pub out: Vec<i16>,
    pub cells: Vec<u64>,
}

impl Difference {
    /// The lists of each recipe hold for both axes.
    pub fn new(a: &[u8], b: &[u8], side: usize) -> Difference {
        let [a, b] = [a, b].map(|list| Recipe::new(list, list, side));
        Difference {
            side,
            pixels: noise(side * side),
            out: vec![0; side * side],
            cells: vec![0; 2 * (a.full_size + b.full_size)],
            a,
            b,
        }
    }

    pub fn by_library(&mut self) {
        let number = bore::difference(
            &self.a.filter,
            &self.b.filter,
            self.side,
            self.side,
            &self.pixels,
            &mut self.out,
            &mut self.cells,
        );
        assert_eq!(number, 0, "the difference is accepted");
    }
}
