//! The 5 by 5 binomial as conventional convolutions in safe Rust: with 25
//! multiplications for each sum, and decomposed into a step along the rows and
//! a step down the columns with 5 each. The coefficients are not known when the
//! program is built.
//!
//! Both come in two number types: the 64 bits of the exact sums, and the 16
//! bits that are just enough for this kernel.

use std::hint::black_box;
use std::ops::{Add, Mul};

/// The coefficients of one axis.
const BINOMIAL: [u8; 5] = [1, 4, 6, 4, 1];

pub trait Number: Copy + From<u8> + Into<u64> + Add<Output = Self> + Mul<Output = Self> {}

impl Number for u16 {}
impl Number for u64 {}

fn kernel<T: Number>() -> [T; 5] {
    black_box(BINOMIAL).map(T::from)
}

/// A square picture in a frame of four black places.
struct Framed {
    side: usize,
    pixels: Vec<u8>,
}

impl Framed {
    fn new(side: usize) -> Framed {
        let framed = side + 8;
        Framed {
            side,
            pixels: vec![0; framed * framed],
        }
    }

    fn fill(&mut self, pixels: &[u8]) {
        let side = self.side;
        let rows = self.pixels.chunks_exact_mut(side + 8).skip(4);
        for (framed, row) in rows.zip(pixels.chunks_exact(side)) {
            framed[4..4 + side].copy_from_slice(row);
        }
    }
}

/// The row from each of five places on.
fn windows<T>(row: &[T]) -> [&[T]; 5] {
    std::array::from_fn(|a| &row[a..row.len() - 4 + a])
}

/// Weighs five values for each place and hands the sum to `put`.
fn weigh<T: Number, V: Copy + Into<T>, O>(
    kernel: &[T; 5],
    values: [&[V]; 5],
    out: &mut [O],
    put: impl Fn(&mut O, T),
) {
    let [k0, k1, k2, k3, k4] = *kernel;
    let [v0, v1, v2, v3, v4] = values.map(|row| row.iter().map(|&value| value.into()));
    let values = v0.zip(v1).zip(v2).zip(v3).zip(v4);
    for (out, ((((v0, v1), v2), v3), v4)) in out.iter_mut().zip(values) {
        put(out, k0 * v0 + k1 * v1 + k2 * v2 + k3 * v3 + k4 * v4);
    }
}

/// The sums of one row from the five rows of pixels that its windows cover.
fn convolve<T: Number>(kernel: &[[T; 5]; 5], rows: [&[u8]; 5], out: &mut [u64]) {
    let total = |sum: T, value: T| sum + value;
    let dot = |(kernel, window): (&[T; 5], &[u8])| {
        let products = kernel.iter().zip(window).map(|(&k, &p)| k * T::from(p));
        products.fold(T::from(0), total)
    };
    let [p, q, r, s, t] = rows.map(|row| row.windows(5));
    let places = p.zip(q).zip(r).zip(s).zip(t);
    for (out, ((((p, q), r), s), t)) in out.iter_mut().zip(places) {
        let windows = kernel.iter().zip([p, q, r, s, t]);
        *out = windows.map(dot).fold(T::from(0), total).into();
    }
}

/// 25 multiplications for each sum.
pub struct Conventional<T> {
    framed: Framed,
    kernel: [[T; 5]; 5],
    row: Vec<T>,
    out: Vec<u64>,
}

impl<T: Number> Conventional<T> {
    pub fn new(side: usize) -> Conventional<T> {
        Conventional {
            framed: Framed::new(side),
            kernel: kernel::<T>().map(|c| kernel::<T>().map(|r| c * r)),
            row: vec![T::from(0); side + 4],
            out: vec![0; (side + 4) * (side + 4)],
        }
    }

    /// Place by place, which is faster with 64-bit numbers.
    pub fn run_by_places(&mut self, pixels: &[u8]) {
        self.framed.fill(pixels);
        let width = self.row.len();
        let framed = &self.framed.pixels;
        for (j, out) in self.out.chunks_exact_mut(width).enumerate() {
            let rows = std::array::from_fn(|b| &framed[(j + b) * (width + 4)..][..width + 4]);
            convolve(&self.kernel, rows, out);
        }
    }

    /// For each row of the window in turn, which is faster with 16-bit numbers.
    pub fn run_by_rows(&mut self, pixels: &[u8]) {
        self.framed.fill(pixels);
        let width = self.row.len();
        for (j, out) in self.out.chunks_exact_mut(width).enumerate() {
            self.row.fill(T::from(0));
            let rows = self.framed.pixels.chunks_exact(width + 4).skip(j);
            for (kernel, row) in self.kernel.iter().zip(rows) {
                let add = |sum: &mut T, part| *sum = *sum + part;
                weigh(kernel, windows(row), &mut self.row, add);
            }
            for (out, &sum) in out.iter_mut().zip(&self.row) {
                *out = sum.into();
            }
        }
    }

    pub fn out(&self) -> &[u64] {
        &self.out
    }
}

/// A step along the rows, then a step down the columns.
pub struct TwoSteps<T> {
    framed: Framed,
    kernel: [T; 5],
    between: Vec<T>,
    out: Vec<u64>,
}

impl<T: Number> TwoSteps<T> {
    pub fn new(side: usize) -> TwoSteps<T> {
        TwoSteps {
            framed: Framed::new(side),
            kernel: kernel(),
            between: vec![T::from(0); (side + 4) * (side + 8)],
            out: vec![0; (side + 4) * (side + 4)],
        }
    }

    pub fn run(&mut self, pixels: &[u8]) {
        self.framed.fill(pixels);
        let width = self.framed.side + 4;
        let rows = self.framed.pixels.chunks_exact(width + 4);
        for (between, row) in self.between.chunks_exact_mut(width).zip(rows) {
            weigh(&self.kernel, windows(row), between, |out, sum| *out = sum);
        }
        for (j, out) in self.out.chunks_exact_mut(width).enumerate() {
            let rows = std::array::from_fn(|b| &self.between[(j + b) * width..][..width]);
            weigh(&self.kernel, rows, out, |out, sum: T| *out = sum.into());
        }
    }

    pub fn out(&self) -> &[u64] {
        &self.out
    }
}
