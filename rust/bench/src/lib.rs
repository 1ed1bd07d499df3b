//! What the programs of the benchmark share: a recipe with a picture and the
//! buffers, the one pass in safe Rust, and times of sides in alternation.

#![forbid(unsafe_code)]

pub mod stages;
pub mod stream;
pub mod timing;
pub mod work;
