//! Operators of two sets, by value and by reference, and those in place.
use crate::operators::operators;
use crate::{raw, RoaringTreemap};
use std::ops::{BitAnd, BitAndAssign, BitOr, BitOrAssign, BitXor, BitXorAssign, Sub, SubAssign};

operators! {
    RoaringTreemap:
    BitOr bitor, BitOrAssign bitor_assign: bit_roaring64_union, bit_roaring64_union_with, |set, other| other | set;
    BitAnd bitand, BitAndAssign bitand_assign:
        bit_roaring64_intersection, bit_roaring64_intersect_with, |set, other| other & set;
    Sub sub, SubAssign sub_assign: bit_roaring64_difference, bit_roaring64_difference_with, |set, other| set - &other;
    BitXor bitxor, BitXorAssign bitxor_assign:
        bit_roaring64_symmetric_difference, bit_roaring64_symmetric_difference_with, |set, other| other ^ set;
}
