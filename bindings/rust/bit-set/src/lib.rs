//! Sets of whole numbers as bits: the API of the crate `bit-set`, over a C library whose every call is proved.
//!
//! Calls with a bit vector in their type (`from_bit_vec`, `into_bit_vec`, `get_ref`, `get_mut`) are left out, since the
//! library does not expose one, and so are the features `serde`, `miniserde`, `nanoserde` and `borsh` of 0.8, whose
//! form is a bit vector's. Blocks have 32 bits, or 64. If memory runs out, a call ends the process, like those of
//! `Vec`. A thread keeps one small dropped set of each width, and reuses it for the next one.
//!
//! ```
//! let mut set = bit_set::BitSet::new();
//! assert!(set.insert(3));
//! set.extend([1, 4, 1]);
//! assert!(set.remove(4));
//! assert!(set.iter().eq([1, 3]));
//! ```
#![deny(unsafe_op_in_unsafe_fn)]

use std::cmp::Ordering;
use std::fmt;
use std::hash::{Hash, Hasher};
use std::marker::PhantomData;
use std::ptr::{null_mut, NonNull};
use std::slice;
use std::sync::OnceLock;
use std::thread::LocalKey;

use bit_set_sys as raw;
use spare::Spare;

mod further;
mod matrix;
mod operators;
mod spare;
mod walks;

pub use matrix::{BitMatrix, Row};
pub use walks::{Difference, Intersection, Iter, SymmetricDifference, Union};

/// A block type of the library.
pub trait BitBlock: raw::Calls + Copy + Into<u64> + 'static {
    /// The calls on matrices.
    #[doc(hidden)]
    type Rows: raw::MatrixCalls;

    /// The dropped set that the thread keeps.
    #[doc(hidden)]
    fn spare() -> &'static LocalKey<Spare<Self>>;

    /// An empty set, which calls that only read use for one that has not allocated.
    #[doc(hidden)]
    fn empty() -> &'static BitSet<Self>;
}

macro_rules! blocks {
    ($($block:ident),*) => {
        $(
            impl BitBlock for $block {
                type Rows = raw::Rows<$block>;

                #[inline(always)]
                fn spare() -> &'static LocalKey<Spare<Self>> {
                    thread_local! {
                        static SPARE: Spare<$block> = const { Spare::none() };
                    }
                    &SPARE
                }

                fn empty() -> &'static BitSet<Self> {
                    static EMPTY: OnceLock<BitSet<$block>> = OnceLock::new();
                    EMPTY.get_or_init(BitSet::allocated)
                }
            }
        )*
    };
}

blocks! { u32, u64 }

/// A set of `usize` below `usize::MAX`.
pub struct BitSet<B: BitBlock = u32> {
    // Null stands for an empty set of length and capacity 0, which has not allocated.
    set: *mut raw::Set,
    blocks: PhantomData<B>,
}

// SAFETY: a set is a block of malloc's and what that points to, and belongs to no thread.
unsafe impl<B: BitBlock> Send for BitSet<B> {}

// SAFETY: a call that takes a `*const` writes nothing: its proof assumes only a shared borrow.
unsafe impl<B: BitBlock> Sync for BitSet<B> {}

// Ends the process if a call ran out of memory.
#[inline]
fn require(done: bool) {
    if !done {
        out_of_memory();
    }
}

// No call reports how much it requested.
#[cold]
#[inline(never)]
fn out_of_memory() -> ! {
    std::alloc::handle_alloc_error(std::alloc::Layout::new::<u64>())
}

// Panics or ends the process, for a call that returned this number below 0.
#[cold]
#[inline(never)]
#[track_caller]
fn fail(answer: i32) -> ! {
    assert_ne!(answer, -2, "usize::MAX is no element");
    out_of_memory()
}

impl<B: BitBlock> Drop for BitSet<B> {
    fn drop(&mut self) {
        if !self.set.is_null() {
            // SAFETY: this set owns it, and does not use it again.
            unsafe { spare::let_go::<B>(self.set) }
        }
    }
}

impl BitSet<u32> {
    /// Creates an empty set. It allocates nothing before the first element.
    pub const fn new() -> Self {
        Self::NEW
    }

    /// Creates an empty set with capacity for numbers below `nbits`.
    pub fn with_capacity(nbits: usize) -> Self {
        Self::with_capacity_general(nbits)
    }

    /// Creates the set of the bits that are 1, with the bits of each byte counted from the highest.
    pub fn from_bytes(bytes: &[u8]) -> Self {
        Self::from_bytes_general(bytes)
    }
}

impl<B: BitBlock> BitSet<B> {
    const NEW: Self = BitSet { set: null_mut(), blocks: PhantomData };

    /// Creates an empty set over any block type.
    pub const fn new_general() -> Self {
        Self::NEW
    }

    /// Creates an empty set over any block type, with capacity for numbers below `nbits`.
    pub fn with_capacity_general(nbits: usize) -> Self {
        // SAFETY: `out` is null.
        Self::made(|out| unsafe { B::with_capacity(out, nbits) })
    }

    /// Creates the set of the bits that are 1, with the bits of each byte counted from the highest, over any block
    /// type.
    pub fn from_bytes_general(bytes: &[u8]) -> Self {
        // SAFETY: `out` is null, and the bytes are borrowed for the call.
        Self::made(|out| unsafe { B::from_bytes(out, bytes.as_ptr(), bytes.len()) })
    }

    // An empty set of the library.
    #[cold]
    fn allocated() -> Self {
        Self::owning(spare::empty::<B>())
    }

    // The set that a call stores.
    fn made(call: impl FnOnce(*mut *mut raw::Set) -> bool) -> Self {
        let mut set = null_mut();
        require(call(&mut set));
        BitSet { set, blocks: PhantomData }
    }

    // The set that was made, which is null if memory ran out.
    #[inline]
    fn owning(set: *mut raw::Set) -> Self {
        require(!set.is_null());
        BitSet { set, blocks: PhantomData }
    }

    // The library's set, to read.
    #[inline]
    fn read(&self) -> *const raw::Set {
        if self.set.is_null() {
            return B::empty().set;
        }
        self.set
    }

    // The library's set, to change; it is made here if there is none yet.
    #[inline]
    fn write(&mut self) -> *mut raw::Set {
        if self.set.is_null() {
            *self = Self::allocated();
        }
        self.set
    }

    // The result of a call that returns whether it changed anything.
    #[inline]
    #[track_caller]
    fn changed(answer: i32) -> bool {
        if answer < 0 {
            fail(answer);
        }
        answer == 1
    }

    /// The capacity: inserting a number below it allocates nothing.
    pub fn capacity(&self) -> usize {
        // SAFETY: the set is borrowed for the call, as in each of the calls below.
        unsafe { B::capacity(self.read()) }
    }

    /// Reserves capacity for elements below `len`.
    pub fn reserve_len(&mut self, len: usize) {
        require(unsafe { B::reserve(self.write(), len) });
    }

    /// Reserves capacity for elements below `len`, and no more.
    pub fn reserve_len_exact(&mut self, len: usize) {
        require(unsafe { B::reserve_exact(self.write(), len) });
    }

    /// Gives back the capacity that the elements do not need, unless memory to move to runs out.
    pub fn shrink_to_fit(&mut self) {
        if !self.set.is_null() {
            unsafe { B::shrink_to_fit(self.set) };
        }
    }

    /// How many elements there are.
    pub fn len(&self) -> usize {
        unsafe { B::count(self.read()) }
    }

    /// The newer name of `len`.
    pub fn count(&self) -> usize {
        self.len()
    }

    /// Whether there is no element.
    pub fn is_empty(&self) -> bool {
        unsafe { B::is_empty(self.read()) }
    }

    /// The length of the bit vector, which is above each element.
    pub fn bit_length(&self) -> usize {
        unsafe { B::length(self.read()) }
    }

    /// The blocks, with a bit for each number below the length: number `n` is an element if bit `n % W` of block `n /
    /// W`, counted from the lowest, is 1. `W` is the number of bits in a block.
    #[inline]
    pub fn as_slice(&self) -> &[B] {
        if self.set.is_null() {
            return &[];
        }
        let mut lent = raw::Lent { blocks: NonNull::<B>::dangling().as_ptr().cast(), count: 0 };
        // SAFETY: the blocks are lent until the set is next changed, and the result borrows the set for as long.
        unsafe {
            B::lend_blocks(self.set, &mut lent);
            slice::from_raw_parts(lent.blocks.cast(), lent.count)
        }
    }

    // Whether the first blocks of both sets are as required. Sets that differ mostly differ there, and a call of the
    // library takes longer than this test.
    #[inline]
    fn begins_as(&self, other: &Self, must_be: impl Fn(u64, u64) -> bool) -> bool {
        let blocks = self.as_slice().iter().zip(other.as_slice());
        blocks.take(8).all(|(&block, &another)| must_be(block.into(), another.into()))
    }

    /// Whether `value` is an element.
    #[inline]
    pub fn contains(&self, value: usize) -> bool {
        !self.set.is_null() && unsafe { B::contains(self.set, value) }
    }

    /// Inserts `value`, and returns whether it is new.
    ///
    /// # Panics
    ///
    /// If `value` is `usize::MAX`, which is not an element.
    #[inline]
    pub fn insert(&mut self, value: usize) -> bool {
        Self::changed(unsafe { B::insert(self.write(), value) })
    }

    /// Removes `value`, and returns whether it was present.
    #[inline]
    pub fn remove(&mut self, value: usize) -> bool {
        !self.set.is_null() && unsafe { B::remove(self.set, value) }
    }

    /// Removes every element.
    pub fn clear(&mut self) {
        self.make_empty();
    }

    /// The newer name of `clear`.
    pub fn make_empty(&mut self) {
        if !self.set.is_null() {
            unsafe { B::make_empty(self.set) }
        }
    }

    /// Removes every element, and sets the length to 0.
    pub fn reset(&mut self) {
        if !self.set.is_null() {
            unsafe { B::reset(self.set) }
        }
    }

    /// Keeps the elements below `len`.
    pub fn truncate(&mut self, len: usize) {
        if !self.set.is_null() {
            unsafe { B::truncate(self.set, len) }
        }
    }

    /// Moves the elements of `other` into the set.
    pub fn append(&mut self, other: &mut Self) {
        if !other.set.is_null() {
            require(unsafe { B::append(self.write(), other.set) });
        }
    }

    /// Splits the set: the elements below `at` stay, and the others are returned.
    pub fn split_off(&mut self, at: usize) -> Self {
        let set = self.write();
        Self::made(|out| unsafe { B::split_off(out, set, at) })
    }

    /// Inserts the elements of `other`.
    pub fn union_with(&mut self, other: &Self) {
        require(unsafe { B::union_with(self.write(), other.read()) });
    }

    /// Keeps only the elements that are in `other` too.
    pub fn intersect_with(&mut self, other: &Self) {
        require(unsafe { B::intersect_with(self.write(), other.read()) });
    }

    /// Removes the elements of `other`.
    pub fn difference_with(&mut self, other: &Self) {
        require(unsafe { B::difference_with(self.write(), other.read()) });
    }

    /// Keeps what is in exactly one of the two sets.
    pub fn symmetric_difference_with(&mut self, other: &Self) {
        require(unsafe { B::symmetric_difference_with(self.write(), other.read()) });
    }

    /// Whether every element is in `other`.
    pub fn is_subset(&self, other: &Self) -> bool {
        let may_be = self.begins_as(other, |block, another| block & !another == 0);
        may_be && unsafe { B::is_subset(self.read(), other.read()) }
    }

    /// Whether every element of `other` is in this set.
    pub fn is_superset(&self, other: &Self) -> bool {
        other.is_subset(self)
    }

    /// Whether no element is in `other`.
    pub fn is_disjoint(&self, other: &Self) -> bool {
        unsafe { B::is_disjoint(self.read(), other.read()) }
    }
}

impl<B: BitBlock> Default for BitSet<B> {
    fn default() -> Self {
        Self::NEW
    }
}

impl<B: BitBlock> Clone for BitSet<B> {
    fn clone(&self) -> Self {
        if self.set.is_null() {
            return Self::NEW;
        }
        // SAFETY: the set is borrowed for the call.
        Self::owning(unsafe { spare::clone::<B>(self.set) })
    }

    fn clone_from(&mut self, other: &Self) {
        if other.set.is_null() {
            return self.reset();
        }
        require(unsafe { B::copy(self.write(), other.read()) });
    }
}

impl<B: BitBlock> Extend<usize> for BitSet<B> {
    fn extend<I: IntoIterator<Item = usize>>(&mut self, iter: I) {
        for value in iter {
            self.insert(value);
        }
    }
}

impl<B: BitBlock> FromIterator<usize> for BitSet<B> {
    fn from_iter<I: IntoIterator<Item = usize>>(iter: I) -> Self {
        let mut set = Self::default();
        set.extend(iter);
        set
    }
}

impl<B: BitBlock> PartialEq for BitSet<B> {
    fn eq(&self, other: &Self) -> bool {
        self.begins_as(other, |block, another| block == another) && unsafe { B::equals(self.read(), other.read()) }
    }
}

impl<B: BitBlock> Eq for BitSet<B> {}

impl<B: BitBlock> PartialOrd for BitSet<B> {
    fn partial_cmp(&self, other: &Self) -> Option<Ordering> {
        Some(self.cmp(other))
    }
}

impl<B: BitBlock> Ord for BitSet<B> {
    fn cmp(&self, other: &Self) -> Ordering {
        unsafe { B::compare(self.read(), other.read()) }.cmp(&0)
    }
}

impl<B: BitBlock> Hash for BitSet<B> {
    fn hash<H: Hasher>(&self, state: &mut H) {
        for value in self {
            value.hash(state);
        }
    }
}

impl<B: BitBlock> fmt::Debug for BitSet<B> {
    fn fmt(&self, fmt: &mut fmt::Formatter<'_>) -> fmt::Result {
        fmt.debug_set().entries(self).finish()
    }
}
