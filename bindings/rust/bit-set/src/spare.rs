//! A small dropped set, which its thread keeps for the next one that it makes. A small set spends most of its time on
//! allocation, once for itself and once for its blocks.
use crate::BitBlock;
use bit_set_sys as raw;
use std::cell::Cell;
use std::marker::PhantomData;
use std::ptr::null_mut;

/// A set of a greater capacity is not kept, and a longer set is not cloned into the kept one.
const LIMIT: usize = 1024;

/// The kept set, or null.
pub struct Spare<B: BitBlock> {
    set: Cell<*mut raw::Set>,
    blocks: PhantomData<B>,
}

impl<B: BitBlock> Spare<B> {
    pub const fn none() -> Self {
        Spare { set: Cell::new(null_mut()), blocks: PhantomData }
    }

    // Keeps a set if none is kept, and returns whether it did.
    fn keep(&self, set: *mut raw::Set) -> bool {
        let is_free = self.set.get().is_null();
        if is_free {
            self.set.set(set);
        }
        is_free
    }
}

impl<B: BitBlock> Drop for Spare<B> {
    fn drop(&mut self) {
        // SAFETY: nothing else uses the set; freeing null does nothing.
        unsafe { B::free(self.set.get()) }
    }
}

// The kept set, or null, also while the thread ends.
fn take<B: BitBlock>() -> *mut raw::Set {
    B::spare().try_with(|spare| spare.set.replace(null_mut())).unwrap_or(null_mut())
}

/// Keeps a set or frees it.
///
/// # Safety
///
/// The caller owns the set, and does not use it again.
#[inline]
pub unsafe fn let_go<B: BitBlock>(set: *mut raw::Set) {
    // SAFETY: the caller upholds this function's contract.
    unsafe {
        let is_kept = B::capacity(set) <= LIMIT && B::spare().try_with(|spare| spare.keep(set)).unwrap_or(false);
        if !is_kept {
            B::free(set);
        }
    }
}

/// An empty set, or null if memory runs out.
#[inline]
pub fn empty<B: BitBlock>() -> *mut raw::Set {
    let mut made = take::<B>();
    // SAFETY: nothing else uses the kept set, and `made` is null if a set is stored there.
    unsafe {
        if made.is_null() {
            B::new(&mut made);
        } else {
            B::reset(made);
        }
    }
    made
}

/// A clone, or null if memory runs out.
///
/// # Safety
///
/// The set is valid, and nothing changes it during the call.
#[inline]
pub unsafe fn clone<B: BitBlock>(set: *const raw::Set) -> *mut raw::Set {
    // SAFETY: the caller upholds this function's contract, and nothing else uses the kept set.
    unsafe {
        let mut made = if B::length(set) <= LIMIT { take::<B>() } else { null_mut() };
        if made.is_null() {
            <B as raw::Calls>::clone(&mut made, set);
        } else if !B::copy(made, set) {
            B::free(made);
            made = null_mut();
        }
        made
    }
}
