//! Where the buffers of a call lie: anywhere, or right beside memory that nobody may touch, so that
//! a word too far ends the process.

use crate::paint::Word;
use std::mem::size_of;
use std::ops::{Deref, DerefMut};
use std::ptr::{copy_nonoverlapping, null_mut};
use std::slice;

#[derive(Clone, Copy, Debug)]
pub enum Ground {
    Heap,
    /// The buffer's last word is the last before the guard.
    BeforeGuard,
    /// The buffer's first word is the first after the guard.
    AfterGuard,
}

impl Ground {
    /// Returns a copy of the words there. Beside a guard it can't be written.
    pub fn lend<T: Word>(self, words: &[T]) -> Lent<T> {
        match self {
            Ground::Heap => Lent::Heap(words.to_vec()),
            _ => {
                let guarded = Guarded::new(words.len(), self);
                unsafe { copy_nonoverlapping(words.as_ptr(), guarded.first, words.len()) };
                guarded.protect(READ);
                Lent::Guarded(guarded)
            }
        }
    }

    /// Returns an output of `count` words there.
    pub fn room<T: Word>(self, count: usize) -> Lent<T> {
        match self {
            Ground::Heap => Lent::Heap(vec![T::default(); count]),
            _ => Lent::Guarded(Guarded::new(count, self)),
        }
    }
}

/// A buffer that is given back when it is dropped.
pub enum Lent<T> {
    Heap(Vec<T>),
    Guarded(Guarded<T>),
}

impl<T> Deref for Lent<T> {
    type Target = [T];

    fn deref(&self) -> &[T] {
        match self {
            Lent::Heap(words) => words,
            Lent::Guarded(guarded) => unsafe {
                slice::from_raw_parts(guarded.first, guarded.count)
            },
        }
    }
}

impl<T> DerefMut for Lent<T> {
    fn deref_mut(&mut self) -> &mut [T] {
        match self {
            Lent::Heap(words) => words,
            Lent::Guarded(guarded) => unsafe {
                slice::from_raw_parts_mut(guarded.first, guarded.count)
            },
        }
    }
}

/// Linux's numbers for what may be done with memory, and for memory that is of no file.
const NOTHING: i32 = 0;
const READ: i32 = 1;
const READ_AND_WRITE: i32 = 3;
const PRIVATE_AND_ANONYMOUS: i32 = 0x22;
/// The bytes of a guard, a multiple of the page size of any machine.
const GUARD: usize = 1 << 16;

extern "C" {
    fn mmap(
        address: *mut u8,
        bytes: usize,
        protection: i32,
        flags: i32,
        file: i32,
        offset: i64,
    ) -> *mut u8;
    fn mprotect(address: *mut u8, bytes: usize, protection: i32) -> i32;
    fn munmap(address: *mut u8, bytes: usize) -> i32;
}

/// A guard, memory of its own and another guard, with a buffer at one end of the memory between.
pub struct Guarded<T> {
    base: *mut u8,
    between: usize,
    first: *mut T,
    count: usize,
}

impl<T> Guarded<T> {
    fn new(count: usize, ground: Ground) -> Guarded<T> {
        let bytes = count * size_of::<T>();
        let between = (bytes / GUARD + 1) * GUARD;
        let base =
            unsafe { mmap(null_mut(), between + 2 * GUARD, NOTHING, PRIVATE_AND_ANONYMOUS, -1, 0) };
        assert_ne!(base as isize, -1, "no memory for {bytes} bytes");
        let skipped = if let Ground::BeforeGuard = ground { between - bytes } else { 0 };
        let first = unsafe { base.add(GUARD + skipped) }.cast();
        let guarded = Guarded { base, between, first, count };
        guarded.protect(READ_AND_WRITE);
        guarded
    }

    fn protect(&self, protection: i32) {
        let failed = unsafe { mprotect(self.base.add(GUARD), self.between, protection) };
        assert_eq!(failed, 0, "the memory between the guards can't be protected");
    }
}

impl<T> Drop for Guarded<T> {
    fn drop(&mut self) {
        unsafe { munmap(self.base, self.between + 2 * GUARD) };
    }
}
