//! Operators of two sets, by value and by reference, and those in place.
use crate::{raw, RoaringBitmap};
use std::ops::{BitAnd, BitAndAssign, BitOr, BitOrAssign, BitXor, BitXorAssign, Sub, SubAssign};

// A set that is there by value is changed in place: the first of the two, or where both stand for one another the second.
macro_rules! operators {
    ($Set:ident: $($Operator:ident $operator:ident, $Assign:ident $assign:ident: $made:ident, $in_place:ident, $swapped:expr;)*) => {
        $(
            impl $Operator for &$Set {
                type Output = $Set;

                fn $operator(self, other: &$Set) -> $Set {
                    // SAFETY: `out` is null, and the sets are borrowed for the call.
                    $Set::made(|out| unsafe { raw::$made(out, self.read(), other.read()) })
                }
            }

            impl $Operator<&$Set> for $Set {
                type Output = $Set;

                fn $operator(mut self, other: &$Set) -> $Set {
                    self.$assign(other);
                    self
                }
            }

            impl $Operator for $Set {
                type Output = $Set;

                fn $operator(self, other: $Set) -> $Set {
                    self.$operator(&other)
                }
            }

            impl $Operator<$Set> for &$Set {
                type Output = $Set;

                fn $operator(self, other: $Set) -> $Set {
                    let merge: fn(&$Set, $Set) -> $Set = $swapped;
                    merge(self, other)
                }
            }

            impl $Assign<&$Set> for $Set {
                fn $assign(&mut self, other: &$Set) {
                    // SAFETY: the sets are borrowed for the call, and differ, since one is borrowed to be changed.
                    Self::changed(unsafe { raw::$in_place(self.write(), other.read()) });
                }
            }

            impl $Assign for $Set {
                fn $assign(&mut self, other: $Set) {
                    self.$assign(&other);
                }
            }
        )*
    };
}

pub(crate) use operators;

operators! {
    RoaringBitmap:
    BitOr bitor, BitOrAssign bitor_assign: bit_roaring_union, bit_roaring_union_with, |set, other| other | set;
    BitAnd bitand, BitAndAssign bitand_assign:
        bit_roaring_intersection, bit_roaring_intersect_with, |set, other| other & set;
    Sub sub, SubAssign sub_assign: bit_roaring_difference, bit_roaring_difference_with, |set, other| set - &other;
    BitXor bitxor, BitXorAssign bitxor_assign:
        bit_roaring_symmetric_difference, bit_roaring_symmetric_difference_with, |set, other| other ^ set;
}
