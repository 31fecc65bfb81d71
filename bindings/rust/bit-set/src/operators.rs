//! Operators that make a set of two, as those of `HashSet` do, and sets of given numbers.
use crate::{BitBlock, BitSet};
use std::ops::{BitAnd, BitOr, BitXor, Sub};

impl<B: BitBlock> BitSet<B> {
    // The longer set, and the other.
    fn by_length<'a>(&'a self, other: &'a Self) -> (&'a Self, &'a Self) {
        if self.bit_length() < other.bit_length() {
            (other, self)
        } else {
            (self, other)
        }
    }
}

impl<B: BitBlock> BitOr for &BitSet<B> {
    type Output = BitSet<B>;

    /// The union, as a new set.
    fn bitor(self, other: Self) -> BitSet<B> {
        let (longer, shorter) = self.by_length(other);
        let mut made = longer.clone();
        made.union_with(shorter);
        made
    }
}

impl<B: BitBlock> BitAnd for &BitSet<B> {
    type Output = BitSet<B>;

    /// The intersection, as a new set with the blocks of the shorter one.
    fn bitand(self, other: Self) -> BitSet<B> {
        let (longer, shorter) = self.by_length(other);
        if longer.as_slice().len() == shorter.as_slice().len() {
            let mut made = shorter.clone();
            made.intersect_with(longer);
            return made;
        }
        let mut made = BitSet::new_general();
        made.union_with_intersection(shorter, longer);
        made
    }
}

impl<B: BitBlock> Sub for &BitSet<B> {
    type Output = BitSet<B>;

    /// The difference, as a new set with the blocks of the first one.
    fn sub(self, other: Self) -> BitSet<B> {
        if self.as_slice().len() >= other.as_slice().len() {
            let mut made = self.clone();
            made.difference_with(other);
            return made;
        }
        let mut made = BitSet::new_general();
        made.copy_difference(self, other);
        made
    }
}

impl<B: BitBlock> BitXor for &BitSet<B> {
    type Output = BitSet<B>;

    /// The symmetric difference, as a new set.
    fn bitxor(self, other: Self) -> BitSet<B> {
        let (longer, shorter) = self.by_length(other);
        let mut made = longer.clone();
        made.symmetric_difference_with(shorter);
        made
    }
}

impl<B: BitBlock> From<&[usize]> for BitSet<B> {
    /// Creates the set of these numbers. It allocates once, for the greatest of them.
    ///
    /// # Panics
    ///
    /// If one of them is `usize::MAX`, which is not an element.
    fn from(numbers: &[usize]) -> Self {
        assert!(!numbers.contains(&usize::MAX), "usize::MAX is no element");
        // SAFETY: `out` is null, and the numbers are borrowed for the call.
        Self::made(|out| unsafe { B::from_members(out, numbers.as_ptr(), numbers.len()) })
    }
}

impl<B: BitBlock, const N: usize> From<[usize; N]> for BitSet<B> {
    /// Creates the set of these numbers. It allocates once, for the greatest of them.
    ///
    /// # Panics
    ///
    /// If one of them is `usize::MAX`, which is not an element.
    fn from(numbers: [usize; N]) -> Self {
        Self::from(&numbers[..])
    }
}
