//! OpenCV's filters on a picture, by the calls of filters.cpp. No other file of
//! the benchmark has unsafe code.

#![allow(unsafe_code)]

use std::ffi::{c_char, c_int, CStr};

#[repr(C)]
struct Parts {
    width: c_int,
    height: c_int,
    pixels: *const u8,
    sums: *mut f64,
}

#[link(name = "peers")]
unsafe extern "C" {
    safe fn peers_version() -> *const c_char;
    safe fn peers_use_one_thread();
    fn peers_sep_filter(
        picture: &Parts,
        rows: *const f64,
        row_count: c_int,
        columns: *const f64,
        column_count: c_int,
    );
    fn peers_box_filters(picture: &Parts, boxes: *const [c_int; 2], count: usize);
}

/// OpenCV's version, once it is told to work in one thread.
pub fn in_one_thread() -> &'static str {
    peers_use_one_thread();
    // SAFETY: the call returns a string that is part of the program.
    let version = unsafe { CStr::from_ptr(peers_version()) };
    version.to_str().expect("a version is plain text")
}

/// Pixels, and a sum for each of them.
pub struct Picture {
    width: usize,
    pixels: Vec<u8>,
    sums: Vec<f64>,
}

impl Picture {
    /// A picture whose rows have this width.
    pub fn new(width: usize, pixels: Vec<u8>) -> Picture {
        assert_eq!(pixels.len() % width, 0, "the rows are whole");
        let sums = vec![0.0; pixels.len()];
        Picture {
            width,
            pixels,
            sums,
        }
    }

    pub fn sums(&self) -> &[f64] {
        &self.sums
    }

    fn parts(&mut self) -> Parts {
        Parts {
            width: int(self.width),
            height: int(self.pixels.len() / self.width),
            pixels: self.pixels.as_ptr(),
            sums: self.sums.as_mut_ptr(),
        }
    }

    /// The sums by `cv::sepFilter2D`, for the coefficients along the rows and
    /// those down the columns.
    pub fn sep_filter(&mut self, [rows, columns]: [&[f64]; 2]) {
        let counts = [rows, columns].map(|kernel| int(kernel.len()));
        let (rows, columns) = (rows.as_ptr(), columns.as_ptr());
        // SAFETY: pixels and sums are as many as width times height, which `new`
        // has seen to; each kernel is a slice with its own length.
        unsafe { peers_sep_filter(&self.parts(), rows, counts[0], columns, counts[1]) }
    }

    /// The sums by one `cv::boxFilter` after the other; a box is a width and a
    /// height.
    pub fn box_filters(&mut self, boxes: &[[c_int; 2]]) {
        // SAFETY: pixels and sums are as many as width times height, which `new`
        // has seen to; the boxes are a slice with its own length.
        unsafe { peers_box_filters(&self.parts(), boxes.as_ptr(), boxes.len()) }
    }
}

fn int(count: usize) -> c_int {
    c_int::try_from(count).expect("a picture's sides are small")
}
