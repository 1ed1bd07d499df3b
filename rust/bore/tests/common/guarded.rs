//! Memory between guard pages, for calls with pointers. What is lent stands
//! right beside one of the guards, so a call that goes past that end of it is
//! stopped by the processor. On its other side stand known bytes; these and the
//! lent values are compared after the call.

use bore::raw::Words;
use bore::{Cascade, Filter};
use reference::random::Random;
use std::ffi::c_void;
use std::ptr::{null_mut, slice_from_raw_parts};
use std::sync::LazyLock;

// Functions and constants of the C library, as on x86-64 Linux.
unsafe extern "C" {
    fn mmap(
        at: *mut c_void,
        length: usize,
        access: i32,
        flags: i32,
        file: i32,
        offset: i64,
    ) -> *mut c_void;
    fn mprotect(at: *mut c_void, length: usize, access: i32) -> i32;
    fn munmap(at: *mut c_void, length: usize) -> i32;
}

const NO_ACCESS: i32 = 0;
const READ_AND_WRITE: i32 = 3;
const PRIVATE_AND_ANONYMOUS: i32 = 0x22;

/// The bytes of each guard, which is made of whole pages.
const GUARD: usize = 1 << 16;

/// The bytes between the guards.
pub const DATA: usize = 1 << 22;

/// The known bytes that are compared after every call.
const MARGIN: usize = 128;

/// The bytes that stand where nothing is lent.
static PATTERN: LazyLock<Vec<u8>> = LazyLock::new(|| {
    let mut random = Random::new(DATA as u64);
    (0..DATA).map(|_| random.word() as u8).collect()
});

/// Values that can be lent.
///
/// # Safety
///
/// A type with this trait has no padding, and any bytes are a value of it.
pub unsafe trait Plain: Copy {}

// SAFETY: these are numbers, and structs and arrays of numbers of one size.
unsafe impl Plain for u8 {}
unsafe impl Plain for i16 {}
unsafe impl Plain for i64 {}
unsafe impl Plain for u64 {}
unsafe impl Plain for usize {}
unsafe impl Plain for Cascade {}
unsafe impl Plain for Filter {}
unsafe impl Plain for Words {}

fn bytes_of<T: Plain>(values: &[T]) -> &[u8] {
    // SAFETY: the bytes are those of the values, which have no padding.
    unsafe { &*slice_from_raw_parts(values.as_ptr().cast(), size_of_val(values)) }
}

/// Data pages with a guard before and after them, for one argument of a call.
pub struct Guarded {
    /// The first byte of the data.
    data: *mut u8,
    /// Where the lent values begin.
    from: usize,
    /// The bytes that the call has to leave there, but for the first `free`.
    left: Vec<u8>,
    free: usize,
    /// The bytes of one value.
    size: usize,
}

impl Guarded {
    pub fn new() -> Guarded {
        // SAFETY: the pages are new, and the data lies within them.
        let data = unsafe {
            let length = DATA + 2 * GUARD;
            let map = mmap(null_mut(), length, NO_ACCESS, PRIVATE_AND_ANONYMOUS, -1, 0);
            assert_ne!(map.addr(), usize::MAX, "no memory can be mapped");
            let data = map.byte_add(GUARD);
            assert_eq!(mprotect(data, DATA, READ_AND_WRITE), 0, "no access");
            data.cast::<u8>()
        };
        let mut guarded = Guarded {
            data,
            from: 0,
            left: vec![],
            free: 0,
            size: 1,
        };
        guarded.data_mut().copy_from_slice(&PATTERN);
        guarded
    }

    fn data(&self) -> &[u8] {
        // SAFETY: these bytes are mapped for reading as long as the region lives,
        // and no call is under way.
        unsafe { &*slice_from_raw_parts(self.data, DATA) }
    }

    fn data_mut(&mut self) -> &mut [u8] {
        // SAFETY: as for `data`, and they may be written.
        unsafe { std::slice::from_raw_parts_mut(self.data, DATA) }
    }

    /// Lends these values. The call has to leave them as they are unless
    /// something else is said.
    pub fn lend<T: Plain>(&mut self, random: &mut Random, values: &[T]) -> *mut T {
        self.left.clear();
        self.left.extend_from_slice(bytes_of(values));
        self.place(random)
    }

    /// Lends as many values of random bits.
    pub fn lend_any<T: Plain>(&mut self, random: &mut Random, length: usize) -> *mut T {
        self.left.resize(length * size_of::<T>(), 0);
        for part in self.left.chunks_mut(8) {
            part.copy_from_slice(&random.word().to_ne_bytes()[..part.len()]);
        }
        self.place(random)
    }

    /// Puts the values beside either guard. The size of a value is a multiple of
    /// its alignment, so they are aligned at both.
    fn place<T>(&mut self, random: &mut Random) -> *mut T {
        let length = self.left.len();
        self.from = random.one_of(&[0, DATA - length]);
        self.free = 0;
        self.size = size_of::<T>();
        if length == 0 {
            return self.nowhere(random);
        }
        // SAFETY: the values are within the data and `left` is elsewhere.
        unsafe {
            let place = self.data.add(self.from);
            place.copy_from_nonoverlapping(self.left.as_ptr(), length);
            place.cast()
        }
    }

    /// An aligned address for no values: null, an edge of the data, or within a
    /// guard.
    fn nowhere<T>(&self, random: &mut Random) -> *mut T {
        let within = random.between(1, GUARD / align_of::<T>()) * align_of::<T>();
        let end = self.data.wrapping_add(DATA);
        let places = [
            null_mut(),
            null_mut(),
            self.data,
            end,
            self.data.wrapping_sub(within),
            end.wrapping_add(GUARD - within),
        ];
        random.one_of(&places).cast()
    }

    /// The call has to leave these values in place of the first that are lent.
    pub fn leaves<T: Plain>(&mut self, values: &[T]) {
        let bytes = bytes_of(values);
        self.left[..bytes.len()].copy_from_slice(bytes);
    }

    /// The call may leave anything in place of so many of the first values.
    pub fn frees(&mut self, values: usize) {
        self.free = values * self.size;
    }

    /// After the call: fails with the first value that is not as it has to be, or
    /// with the side on which known bytes were changed. Else the known bytes stand
    /// everywhere again.
    pub fn compare(&mut self) -> Result<(), String> {
        let lent = self.from..self.from + self.left.len();
        let found = &self.data()[lent.clone()];
        if found[self.free..] != self.left[self.free..] {
            return Err(self.first_difference(found));
        }
        let margins = match lent.is_empty() {
            true => [0..MARGIN, DATA - MARGIN..DATA],
            false => [
                lent.start.saturating_sub(MARGIN)..lent.start,
                lent.end..DATA.min(lent.end + MARGIN),
            ],
        };
        for (margin, side) in margins.into_iter().zip(["before", "after"]) {
            if self.data()[margin.clone()] != PATTERN[margin] {
                return Err(format!("bytes {side} the lent values are changed"));
            }
        }
        self.data_mut()[lent.clone()].copy_from_slice(&PATTERN[lent]);
        Ok(())
    }

    fn first_difference(&self, found: &[u8]) -> String {
        let values = found.chunks(self.size).zip(self.left.chunks(self.size));
        let begin = self.free / self.size;
        let mut values = values.enumerate().skip(begin);
        let (place, (found, left)) = values
            .find(|(_, (found, left))| found != left)
            .expect("the values differ");
        format!("value {place} has the bytes {found:?} in place of {left:?}")
    }

    /// Whether the known bytes stand everywhere, when nothing is lent.
    pub fn is_clean(&self) -> bool {
        self.data() == &PATTERN[..]
    }
}

impl Drop for Guarded {
    fn drop(&mut self) {
        // SAFETY: this is the whole of what `new` mapped, and no pointer into it
        // is used any more.
        unsafe { munmap(self.data.byte_sub(GUARD).cast(), DATA + 2 * GUARD) };
    }
}
