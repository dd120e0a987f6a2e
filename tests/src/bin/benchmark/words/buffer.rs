//! Arrays that are not cleared.

use std::mem::MaybeUninit;
use std::ops::{Deref, DerefMut};
use std::slice;

/// Room for N values, of which none is written yet.
pub type Room<T, const N: usize> = [MaybeUninit<T>; N];

#[inline(always)]
pub fn room<T: Copy, const N: usize>() -> Room<T, N> {
    [MaybeUninit::uninit(); N]
}

/// Values in a room. Those before `length` are written, the others are never read. The
/// length is apart from the room, so that the compiler can keep it in a register.
pub struct Buffer<'a, T> {
    room: &'a mut [MaybeUninit<T>],
    length: usize,
}

impl<'a, T: Copy> Buffer<'a, T> {
    #[inline(always)]
    pub fn new(room: &'a mut [MaybeUninit<T>]) -> Self {
        Buffer { room, length: 0 }
    }

    #[inline(always)]
    pub fn clear(&mut self) {
        self.length = 0;
    }

    #[inline(always)]
    pub fn push(&mut self, value: T) {
        self.room[self.length].write(value);
        self.length += 1;
    }

    /// The last value, which is taken off.
    #[inline(always)]
    pub fn pop(&mut self) -> Option<T> {
        let value = *self.last()?;
        self.length -= 1;
        Some(value)
    }

    #[inline(always)]
    pub fn extend(&mut self, values: &[T]) {
        self.room[self.length..][..values.len()].write_copy_of_slice(values);
        self.length += values.len();
    }

    /// Adds what the iterator gives, as long as there is room.
    #[inline(always)]
    pub fn extend_with(&mut self, values: impl Iterator<Item = T>) {
        let mut length = self.length;
        for (place, value) in self.room[length..].iter_mut().zip(values) {
            place.write(value);
            length += 1;
        }
        self.length = length;
    }

    /// The values, for as long as there is the room.
    #[inline(always)]
    pub fn into_slice(self) -> &'a [T] {
        // The first `length` places are written.
        unsafe { slice::from_raw_parts(self.room.as_ptr().cast(), self.length) }
    }
}

impl<T: Copy> Default for Buffer<'_, T> {
    /// A buffer without any room.
    #[inline(always)]
    fn default() -> Self {
        Buffer::new(&mut [])
    }
}

impl<T> Deref for Buffer<'_, T> {
    type Target = [T];

    #[inline(always)]
    fn deref(&self) -> &[T] {
        // The first `length` places are written.
        unsafe { slice::from_raw_parts(self.room.as_ptr().cast(), self.length) }
    }
}

impl<T> DerefMut for Buffer<'_, T> {
    #[inline(always)]
    fn deref_mut(&mut self) -> &mut [T] {
        // The first `length` places are written.
        unsafe { slice::from_raw_parts_mut(self.room.as_mut_ptr().cast(), self.length) }
    }
}
