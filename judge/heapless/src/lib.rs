//! A stand-in for the part of `heapless` that the given files use; the crate itself was not supplied.
//! It leaves unused room uninitialised, so that the Rust pays nothing for it. No item of theirs owns
//! anything, so none is dropped.
#![no_std]

use core::fmt;
use core::mem::MaybeUninit;
use core::ops::Deref;

pub struct Vec<T, const N: usize> {
    items: [MaybeUninit<T>; N],
    len: usize,
}

impl<T, const N: usize> Vec<T, N> {
    pub fn new() -> Self {
        Vec { items: [const { MaybeUninit::uninit() }; N], len: 0 }
    }

    pub fn clear(&mut self) {
        self.len = 0;
    }

    pub fn push(&mut self, item: T) -> Result<(), T> {
        if self.len < N {
            self.items[self.len].write(item);
            self.len += 1;
            Ok(())
        } else {
            Err(item)
        }
    }
}

impl<T, const N: usize> Deref for Vec<T, N> {
    type Target = [T];

    fn deref(&self) -> &[T] {
        // SAFETY: the first `len` items were written, by `push` or by `clone`.
        unsafe { core::slice::from_raw_parts(self.items.as_ptr().cast(), self.len) }
    }
}

impl<T: Clone, const N: usize> Clone for Vec<T, N> {
    fn clone(&self) -> Self {
        let mut copy = Vec::new();
        for (to, from) in copy.items.iter_mut().zip(self.iter()) {
            to.write(from.clone());
        }
        copy.len = self.len;
        copy
    }
}

impl<T: PartialEq, const N: usize> PartialEq for Vec<T, N> {
    fn eq(&self, other: &Self) -> bool {
        **self == **other
    }
}

impl<T: fmt::Debug, const N: usize> fmt::Debug for Vec<T, N> {
    fn fmt(&self, f: &mut fmt::Formatter<'_>) -> fmt::Result {
        f.debug_list().entries(self.iter()).finish()
    }
}
