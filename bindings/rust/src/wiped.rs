//! Values that are overwritten when they are dropped.

use core::mem::{size_of, MaybeUninit};
use core::ops::{Deref, DerefMut};
use core::ptr::write_volatile;
use core::slice::from_raw_parts_mut;
use core::sync::atomic::{compiler_fence, Ordering};

/// Plain bytes and numbers.
///
/// # Safety
/// Every pattern of bytes is a value of the type; so zeros are.
pub(crate) unsafe trait Plain: Copy {}

// SAFETY: bytes.
unsafe impl<const N: usize> Plain for [u8; N] {}

/// A plain value that does not outlive its use: dropped, it is zeros.
#[derive(Clone)]
pub(crate) struct Wiped<T: Plain>(pub(crate) T);

impl<T: Plain> Deref for Wiped<T> {
    type Target = T;

    fn deref(&self) -> &T {
        &self.0
    }
}

impl<T: Plain> DerefMut for Wiped<T> {
    fn deref_mut(&mut self) -> &mut T {
        &mut self.0
    }
}

impl<T: Plain> Drop for Wiped<T> {
    fn drop(&mut self) {
        let start: *mut T = &mut self.0;
        // SAFETY: these are the value's own bytes, with its padding, borrowed for this call alone; zeros are a value of it, and
        // of bytes and words.
        unsafe {
            let bytes = from_raw_parts_mut(start.cast::<MaybeUninit<u8>>(), size_of::<T>());
            let (before, words, behind) = bytes.align_to_mut::<MaybeUninit<u64>>();
            for byte in before.iter_mut().chain(behind) {
                write_volatile(byte, MaybeUninit::zeroed());
            }
            for word in words {
                write_volatile(word, MaybeUninit::zeroed());
            }
        }
        compiler_fence(Ordering::SeqCst);
    }
}
