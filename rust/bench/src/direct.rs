//! The direct method in safe Rust: for each sum, over the rows of the window,
//! C[b] times the sum of R[a] times pixel over the columns of the window.

use crate::work::Work;

/// The coefficients of a list: each box in turn, in place from the highest
/// place down.
fn fill_kernel(list: &[u8], kernel: &mut [u64]) {
    kernel.fill(0);
    kernel[0] = 1;
    let mut length = 1;
    for &n in list {
        let n = usize::from(n);
        length += n - 1;
        for k in (0..length).rev() {
            let from = (k + 1).saturating_sub(n);
            kernel[k] = kernel[from..=k].iter().sum();
        }
    }
}

/// The sum over one row of pixels of a window that ends at place i: the first
/// coefficient belongs to the last pixel.
fn row_sum(kernel: &[u64], pixels: &[u8], i: usize) -> u64 {
    let from = i.saturating_sub(kernel.len() - 1);
    let to = (i + 1).min(pixels.len());
    let kernel = &kernel[i + 1 - to..=i - from];
    let products = pixels[from..to].iter().zip(kernel.iter().rev());
    products.map(|(&pixel, &r)| r * u64::from(pixel)).sum()
}

pub fn run(work: &mut Work) {
    let full_width = work.full_width();
    let (r, c) = (&mut work.row_kernel, &mut work.column_kernel);
    fill_kernel(&work.rows, r);
    fill_kernel(&work.columns, c);
    for (j, out) in work.out.chunks_exact_mut(full_width).enumerate() {
        let from = j.saturating_sub(c.len() - 1);
        let to = (j + 1).min(work.height);
        let window = &work.pixels[from * work.width..to * work.width];
        let c = &c[j + 1 - to..=j - from];
        for (i, sum) in out.iter_mut().enumerate() {
            let rows = window.chunks_exact(work.width).zip(c.iter().rev());
            *sum = rows.map(|(pixels, &c)| c * row_sum(r, pixels, i)).sum();
        }
    }
}
