//! Bits up to a length: the API of the crate `fixedbitset` 0.4, over a C library whose every call is proved.
//!
//! `as_mut_slice` is left out, since the library lends blocks only for reading, and so is the feature `serde`. `union`
//! and `symmetric_difference` ascend, where those of the crate yield one set and then the rest of the other.
//!
//! ```
//! let mut bits = fixedbitset::FixedBitSet::with_capacity(10);
//! bits.insert(3);
//! assert_eq!((bits.len(), bits.count_ones(..)), (10, 1));
//! ```
#![forbid(unsafe_code)]

use bit_set::BitSet;
use std::cmp::Ordering;
use std::fmt;
use std::hash::{Hash, Hasher};
use std::ops::{BitAnd, BitAndAssign, BitOr, BitOrAssign, BitXor, BitXorAssign, Index, Range};

mod range;
mod walks;

pub use range::IndexRange;
pub use walks::{Difference, Intersection, Ones, SymmetricDifference, Union};

const BITS: usize = u32::BITS as usize;

fn blocks_for(bits: usize) -> usize {
    bits / BITS + usize::from(bits % BITS != 0)
}

// Makes the set at least this long. The new bits are clear.
fn lengthen(set: &mut BitSet, bits: usize) {
    if bits > set.bit_length() {
        set.insert(bits - 1);
        set.remove(bits - 1);
    }
}

/// Bits up to a length, each of which is set or clear.
#[derive(Default)]
pub struct FixedBitSet {
    // The bits that are set, each below the length. The set is at least as long.
    set: BitSet,
    length: usize,
}

impl FixedBitSet {
    /// Creates an empty bit set of length 0.
    pub const fn new() -> Self {
        FixedBitSet { set: BitSet::new(), length: 0 }
    }

    /// Creates a bit set of this length, with all bits clear.
    pub fn with_capacity(bits: usize) -> Self {
        let set = if bits == 0 { BitSet::new() } else { BitSet::with_capacity(bits) };
        FixedBitSet { set, length: bits }
    }

    /// Creates a bit set of this length from blocks, lowest bit first. Bits past the blocks are clear.
    pub fn with_capacity_and_blocks<I: IntoIterator<Item = u32>>(bits: usize, blocks: I) -> Self {
        let bytes: Vec<u8> = blocks.into_iter().take(blocks_for(bits)).flat_map(u32::to_le_bytes).collect();
        let mut set = BitSet::from_bytes_lsb(&bytes);
        set.truncate(bits);
        lengthen(&mut set, bits);
        FixedBitSet { set, length: bits }
    }

    /// Makes the length at least `bits`. The new bits are clear.
    pub fn grow(&mut self, bits: usize) {
        if bits > self.length {
            lengthen(&mut self.set, bits);
            self.length = bits;
        }
    }

    /// How many bits there are.
    #[inline]
    pub fn len(&self) -> usize {
        self.length
    }

    /// Whether the length is 0.
    #[inline]
    pub fn is_empty(&self) -> bool {
        self.length == 0
    }

    /// Whether no bit is set.
    pub fn is_clear(&self) -> bool {
        self.set.is_empty()
    }

    /// Whether the bit is set, which is false past the length.
    #[inline]
    pub fn contains(&self, bit: usize) -> bool {
        self.set.contains(bit)
    }

    /// Clears every bit.
    pub fn clear(&mut self) {
        self.set.make_empty();
    }

    // Panics if the bit is not below the length.
    #[track_caller]
    #[inline]
    fn check(&self, call: &str, bit: usize) {
        assert!(bit < self.length, "{call} at index {bit} exceeds fixbitset size {}", self.length);
    }

    /// Sets a bit.
    ///
    /// # Panics
    ///
    /// If the bit is not below the length, as in the four calls below.
    #[inline]
    pub fn insert(&mut self, bit: usize) {
        self.check("insert", bit);
        self.set.insert(bit);
    }

    /// Sets a bit, and returns whether it was set before.
    #[inline]
    pub fn put(&mut self, bit: usize) -> bool {
        self.check("put", bit);
        !self.set.insert(bit)
    }

    /// Toggles a bit.
    #[inline]
    pub fn toggle(&mut self, bit: usize) {
        self.check("toggle", bit);
        self.set.toggle(bit);
    }

    /// Sets a bit if `enabled` is true, and clears it if not.
    #[inline]
    pub fn set(&mut self, bit: usize, enabled: bool) {
        self.check("set", bit);
        self.set.set(bit, enabled);
    }

    /// Copies the bit `from` to the bit `to`.
    #[inline]
    pub fn copy_bit(&mut self, from: usize, to: usize) {
        self.check("copy", to);
        self.set.set(to, self.set.contains(from));
    }

    // The bounds of the range. Panics if it ends past the length, or before it begins.
    #[track_caller]
    fn within<T: IndexRange>(&self, range: T) -> Range<usize> {
        let (start, end) = (range.start().unwrap_or(0), range.end().unwrap_or(self.length));
        assert!(
            start <= end && end <= self.length,
            "invalid range {start}..{end} for a fixedbitset of size {}",
            self.length
        );
        start..end
    }

    /// How many bits of the range are set.
    ///
    /// # Panics
    ///
    /// If the range ends past the length, as in the three calls below.
    pub fn count_ones<T: IndexRange>(&self, range: T) -> usize {
        self.set.count_in_range(self.within(range))
    }

    /// Sets the bits of the range if `enabled` is true, and clears them if not.
    pub fn set_range<T: IndexRange>(&mut self, range: T, enabled: bool) {
        let range = self.within(range);
        match enabled {
            true => self.set.insert_range(range),
            false => self.set.remove_range(range),
        }
    }

    /// Sets the bits of the range.
    pub fn insert_range<T: IndexRange>(&mut self, range: T) {
        self.set_range(range, true);
    }

    /// Toggles the bits of the range.
    pub fn toggle_range<T: IndexRange>(&mut self, range: T) {
        self.set.toggle_range(self.within(range));
    }

    /// Sets the bits that are set in `other`. The length becomes the greater of the two.
    pub fn union_with(&mut self, other: &FixedBitSet) {
        self.grow(other.length);
        self.set.union_with(&other.set);
    }

    /// Clears the bits that are clear in `other`, or past its length.
    pub fn intersect_with(&mut self, other: &FixedBitSet) {
        self.set.intersect_with(&other.set);
    }

    /// Clears the bits that are set in `other`.
    pub fn difference_with(&mut self, other: &FixedBitSet) {
        self.set.difference_with(&other.set);
    }

    /// Toggles the bits that are set in `other`. The length becomes the greater of the two.
    pub fn symmetric_difference_with(&mut self, other: &FixedBitSet) {
        self.grow(other.length);
        self.set.symmetric_difference_with(&other.set);
    }

    /// Whether no bit is set in both.
    pub fn is_disjoint(&self, other: &FixedBitSet) -> bool {
        self.set.is_disjoint(&other.set)
    }

    /// Whether every bit that is set here is set in `other`.
    pub fn is_subset(&self, other: &FixedBitSet) -> bool {
        self.set.is_subset(&other.set)
    }

    /// Whether every bit that is set in `other` is set here.
    pub fn is_superset(&self, other: &FixedBitSet) -> bool {
        other.is_subset(self)
    }

    /// The blocks, lowest bit first. Bits past the length are clear.
    pub fn as_slice(&self) -> &[u32] {
        &self.set.as_slice()[..blocks_for(self.length)]
    }
}

impl Clone for FixedBitSet {
    fn clone(&self) -> Self {
        FixedBitSet { set: self.set.clone(), length: self.length }
    }

    fn clone_from(&mut self, other: &Self) {
        self.set.clone_from(&other.set);
        self.length = other.length;
    }
}

impl PartialEq for FixedBitSet {
    fn eq(&self, other: &Self) -> bool {
        self.length == other.length && self.set == other.set
    }
}

impl Eq for FixedBitSet {}

impl PartialOrd for FixedBitSet {
    fn partial_cmp(&self, other: &Self) -> Option<Ordering> {
        Some(self.cmp(other))
    }
}

impl Ord for FixedBitSet {
    // By the lists of blocks, and then by length.
    fn cmp(&self, other: &Self) -> Ordering {
        self.as_slice().cmp(other.as_slice()).then(self.length.cmp(&other.length))
    }
}

impl Hash for FixedBitSet {
    fn hash<H: Hasher>(&self, state: &mut H) {
        self.set.hash(state);
        self.length.hash(state);
    }
}

impl fmt::Debug for FixedBitSet {
    fn fmt(&self, fmt: &mut fmt::Formatter<'_>) -> fmt::Result {
        fmt.debug_struct("FixedBitSet").field("data", &self.as_slice()).field("length", &self.length).finish()
    }
}

impl fmt::Binary for FixedBitSet {
    fn fmt(&self, fmt: &mut fmt::Formatter<'_>) -> fmt::Result {
        if fmt.alternate() {
            fmt.write_str("0b")?;
        }
        (0..self.length).try_for_each(|bit| fmt.write_str(if self.contains(bit) { "1" } else { "0" }))
    }
}

impl fmt::Display for FixedBitSet {
    fn fmt(&self, fmt: &mut fmt::Formatter<'_>) -> fmt::Result {
        fmt::Binary::fmt(self, fmt)
    }
}

impl Index<usize> for FixedBitSet {
    type Output = bool;

    #[inline]
    fn index(&self, bit: usize) -> &bool {
        match self.contains(bit) {
            true => &true,
            false => &false,
        }
    }
}

/// Sets the bits, and increases the length if one needs it.
impl Extend<usize> for FixedBitSet {
    fn extend<I: IntoIterator<Item = usize>>(&mut self, bits: I) {
        for bit in bits {
            self.set.insert(bit);
            self.length = self.length.max(bit + 1);
        }
    }
}

/// Sets the bits. The length is one more than the greatest.
impl FromIterator<usize> for FixedBitSet {
    fn from_iter<I: IntoIterator<Item = usize>>(bits: I) -> Self {
        let mut set = FixedBitSet::new();
        set.extend(bits);
        set
    }
}

// An operator's result has the lesser or the greater of the two lengths; the assigning operator does what the call
// does.
macro_rules! operators {
    ($($Operator:ident $operator:ident, $Assign:ident $assign:ident: $call:ident, $length:ident;)*) => {
        $(
            impl $Operator for &FixedBitSet {
                type Output = FixedBitSet;

                fn $operator(self, other: &FixedBitSet) -> FixedBitSet {
                    let mut result = self.clone();
                    result.$call(other);
                    result.length = self.length.$length(other.length);
                    result
                }
            }

            impl $Assign for FixedBitSet {
                fn $assign(&mut self, other: Self) {
                    self.$call(&other);
                }
            }

            impl $Assign<&Self> for FixedBitSet {
                fn $assign(&mut self, other: &Self) {
                    self.$call(other);
                }
            }
        )*
    };
}

operators! {
    BitAnd bitand, BitAndAssign bitand_assign: intersect_with, min;
    BitOr bitor, BitOrAssign bitor_assign: union_with, max;
    BitXor bitxor, BitXorAssign bitxor_assign: symmetric_difference_with, max;
}
