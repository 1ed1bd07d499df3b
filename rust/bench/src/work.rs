//! A recipe, a picture and the buffers of all methods, and the library's three
//! methods on them, and its ladder.

use bore::{Axes, Cascade, Filter, State};

/// A recipe and a square picture with buffers of the right lengths.
#[derive(Clone)]
pub struct Work {
    pub rows: Vec<u8>,
    pub columns: Vec<u8>,
    pub width: usize,
    pub height: usize,
    pub pixels: Vec<u8>,
    pub row_kernel: Vec<u64>,
    pub column_kernel: Vec<u64>,
    pub out: Vec<u64>,
    pub cells: Vec<u64>,
    /// The cells that the one pass needs.
    pub needed: usize,
}

pub fn cascade(list: &[u8]) -> Cascade {
    let mut widths = [0; 48];
    widths[..list.len()].copy_from_slice(list);
    Cascade {
        count: list.len() as u8,
        widths,
    }
}

/// The sum of (n - 1) over a list.
pub fn reach(list: &[u8]) -> usize {
    list.iter().map(|&n| usize::from(n) - 1).sum()
}

/// Bytes that follow no pattern.
pub fn noise(count: usize) -> Vec<u8> {
    let mut word: u64 = 1;
    let mut next = || {
        word = word.wrapping_mul(6_364_136_223_846_793_005);
        word = word.wrapping_add(1_442_695_040_888_963_407);
        (word >> 56) as u8
    };
    (0..count).map(|_| next()).collect()
}

impl Work {
    pub fn new(rows: &[u8], columns: &[u8], side: usize) -> Work {
        let (row_reach, column_reach) = (reach(rows), reach(columns));
        let size = (side + row_reach) * (side + column_reach);
        let mut work = Work {
            rows: rows.to_vec(),
            columns: columns.to_vec(),
            width: side,
            height: side,
            pixels: noise(side * side),
            row_kernel: vec![0; row_reach + 1],
            column_kernel: vec![0; column_reach + 1],
            out: vec![0; size],
            cells: vec![],
            needed: 0,
        };
        let filter = work.filter();
        let number = bore::stream_cells(&filter, side, &mut work.needed);
        assert_eq!(number, 0, "the recipe is accepted");
        work.cells = vec![0; work.needed.max(size)];
        work
    }

    fn filter(&self) -> Filter {
        Filter {
            rows: cascade(&self.rows),
            columns: cascade(&self.columns),
        }
    }

    /// The width of a grown row.
    pub fn full_width(&self) -> usize {
        self.width + reach(&self.rows)
    }

    /// What two methods have to agree on. The coefficients are zeros unless the
    /// direct method has run.
    pub fn results(&self) -> [&[u64]; 3] {
        [&self.row_kernel, &self.column_kernel, &self.out]
    }

    pub fn direct(&mut self) {
        let number = bore::direct(
            &self.filter(),
            self.width,
            self.height,
            &self.pixels,
            &mut self.row_kernel,
            &mut self.column_kernel,
            &mut self.out,
        );
        assert_eq!(number, 0, "the direct method is accepted");
    }

    pub fn passes(&mut self) {
        let filter = self.filter();
        let number = bore::passes(
            &filter,
            self.width,
            self.height,
            &self.pixels,
            &mut self.out,
            &mut self.cells,
        );
        assert_eq!(number, 0, "pass by pass is accepted");
    }

    /// The level of the ladder that the recipe is, on both axes where there are
    /// columns.
    pub fn ladder(&mut self, level: usize) {
        let axes = match self.columns.is_empty() {
            true => Axes::Rows,
            false => Axes::Both,
        };
        let number = bore::ladder(
            level,
            axes,
            self.width,
            self.height,
            &self.pixels,
            &mut self.out,
            &mut self.cells,
        );
        assert_eq!(number, 0, "the ladder is accepted");
    }

    pub fn stream(&mut self) {
        let filter = self.filter();
        let full_width = self.full_width();
        let cells = &mut self.cells;
        let mut state = State {
            filter,
            width: 0,
            height: 0,
            emitted: 0,
        };
        let number = bore::start(&filter, self.width, self.height, cells, &mut state);
        assert_eq!(number, 0, "the start is accepted");
        let mut rows = self.pixels.chunks_exact(self.width);
        let mut count = 0;
        for out in self.out.chunks_exact_mut(full_width) {
            let number = match rows.next() {
                Some(pixels) => bore::push(&mut state, pixels, out, cells, &mut count),
                None => bore::drain(&mut state, out, cells, &mut count),
            };
            assert_eq!(number, 0, "the call is accepted");
        }
    }
}
