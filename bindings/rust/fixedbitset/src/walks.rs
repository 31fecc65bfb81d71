//! Iterators over the bits that are set, and over merges of two bit sets. Each ascends.
use crate::FixedBitSet;

macro_rules! walks {
    ($($(#[$doc:meta])* $Name:ident, $name:ident $(of $other:ident)?: $Walk:ident $walk:ident;)*) => {
        $(
            $(#[$doc])*
            pub struct $Name<'a>(bit_set::$Walk<'a>);

            impl Iterator for $Name<'_> {
                type Item = usize;

                #[inline]
                fn next(&mut self) -> Option<usize> {
                    self.0.next()
                }
            }

            impl FixedBitSet {
                $(#[$doc])*
                pub fn $name<'a>(&'a self $(, $other: &'a FixedBitSet)?) -> $Name<'a> {
                    $Name(self.set.$walk($(&$other.set)?))
                }
            }
        )*
    };
}

walks! {
    /// An iterator over the bits that are set.
    Ones, ones: Iter iter;
    /// An iterator over the bits that are set in either.
    Union, union of other: Union union;
    /// An iterator over the bits that are set in both.
    Intersection, intersection of other: Intersection intersection;
    /// An iterator over the bits that are set only in the first.
    Difference, difference of other: Difference difference;
    /// An iterator over the bits that are set in exactly one of the two.
    SymmetricDifference, symmetric_difference of other: SymmetricDifference symmetric_difference;
}
