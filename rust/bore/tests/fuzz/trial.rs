//! One call after another, each with arguments between guard pages: what a call
//! is lent, and the comparison of all of it afterwards. A fault on a guard page
//! names the call and its seed before it ends the process.

use crate::common::guarded::{Guarded, Plain};
use reference::random::Random;
use std::cell::Cell;
use std::fmt::Arguments;
use std::io::Write;

/// The most pointers that a call has.
const POINTERS: usize = 6;

thread_local! {
    /// The call that is under way in this thread, and its seed.
    static CURRENT: Cell<(&'static str, u64)> = const { Cell::new(("", 0)) };
}

// Functions of the C library.
unsafe extern "C" {
    safe fn signal(number: i32, handler: extern "C" fn(i32)) -> usize;
    fn write(file: i32, bytes: *const u8, length: usize) -> isize;
}

/// Writes call and seed to standard error and ends the process.
extern "C" fn fault(_: i32) {
    let (call, seed) = CURRENT.get();
    let mut text = [b' '; 80];
    let mut rest = &mut text[..];
    writeln!(rest, "\nfault: {call}, seed {seed}").ok();
    let length = 80 - rest.len();
    // SAFETY: the bytes are those of one array.
    unsafe { write(2, text.as_ptr(), length) };
    std::process::abort();
}

/// Has faults name the call. The numbers are those of Linux for a fault on a
/// page and for a page that is not there.
pub fn name_faults() {
    for number in [11, 7] {
        signal(number, fault);
    }
}

/// The call of a seed, and the memory for its arguments.
pub struct Trial {
    pub random: Random,
    call: &'static str,
    seed: u64,
    regions: [Guarded; POINTERS],
    lent: usize,
}

impl Trial {
    pub fn new() -> Trial {
        Trial {
            random: Random::new(0),
            call: "",
            seed: 0,
            regions: std::array::from_fn(|_| Guarded::new()),
            lent: 0,
        }
    }

    /// Begins the call of a seed with a generator that has chosen the call.
    pub fn begin(&mut self, call: &'static str, seed: u64, random: Random) {
        CURRENT.set((call, seed));
        (self.call, self.seed, self.random) = (call, seed, random);
        self.lent = 0;
    }

    /// The memory of the next pointer.
    fn next(&mut self) -> (&mut Guarded, &mut Random) {
        self.lent += 1;
        (&mut self.regions[self.lent - 1], &mut self.random)
    }

    /// Values that the call may only read.
    pub fn give<T: Plain>(&mut self, values: &[T]) -> *const T {
        self.lend(values, &[])
    }

    /// Values of which the call has to turn the first into these.
    pub fn lend<T: Plain>(&mut self, values: &[T], left: &[T]) -> *mut T {
        let (region, random) = self.next();
        let pointer = region.lend(random, values);
        region.leaves(left);
        pointer
    }

    /// As many values of random bits, of which the call has to turn the first
    /// into these.
    pub fn lend_any<T: Plain>(&mut self, length: usize, left: &[T]) -> *mut T {
        let (region, random) = self.next();
        let pointer = region.lend_any(random, length);
        region.leaves(left);
        pointer
    }

    /// As many work cells of random bits, of which the first are free.
    pub fn lend_free(&mut self, length: usize, free: usize) -> *mut u64 {
        let (region, random) = self.next();
        let pointer = region.lend_any(random, length);
        region.frees(free);
        pointer
    }

    /// Compares the number and all that was lent, and returns the number. A
    /// failure names the pointer, counted from 0 in the order of the arguments.
    pub fn agree(&mut self, found: u8, expected: u8, note: Arguments) -> u8 {
        let (call, seed) = (self.call, self.seed);
        assert_eq!(found, expected, "{call}, seed {seed}: {note}");
        for (place, region) in self.regions[..self.lent].iter_mut().enumerate() {
            if let Err(difference) = region.compare() {
                panic!("{call}, seed {seed}, pointer {place}: {difference}; {note}");
            }
        }
        expected
    }

    /// Whether the known bytes stand everywhere between the guards.
    pub fn is_clean(&self) -> bool {
        self.regions.iter().all(Guarded::is_clean)
    }
}
