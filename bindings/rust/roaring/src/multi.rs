//! Merges of any number of sets.
use crate::{RoaringBitmap, RoaringTreemap};
use std::borrow::Cow;
use std::convert::Infallible;

/// Merges of the sets that an iterator yields, by value or by reference, or of results that have them. The first is
/// copied, or taken if it is there by value, and changed in place by each further one. Of none the result is empty.
///
/// ```
/// use roaring::{MultiOps, RoaringBitmap};
///
/// let sets = [RoaringBitmap::from([1, 2, 3]), RoaringBitmap::from([2, 3, 4]), RoaringBitmap::from([3, 9])];
/// assert_eq!(sets.iter().intersection(), RoaringBitmap::from([3]));
/// assert_eq!(sets.iter().difference(), RoaringBitmap::from([1]));
/// assert_eq!(sets.union(), RoaringBitmap::from([1, 2, 3, 4, 9]));
/// ```
pub trait MultiOps<T>: IntoIterator<Item = T> {
    /// A set, or the first error.
    type Output;

    /// What is in any of the sets.
    fn union(self) -> Self::Output;

    /// What is in each of the sets.
    fn intersection(self) -> Self::Output;

    /// What is in the first of the sets only.
    fn difference(self) -> Self::Output;

    /// What is in an odd number of the sets.
    fn symmetric_difference(self) -> Self::Output;
}

fn merge<'a, S: Clone + Default + 'a, E>(
    mut sets: impl Iterator<Item = Result<Cow<'a, S>, E>>,
    merge: impl Fn(&mut S, &S),
) -> Result<S, E> {
    let mut merged = sets.next().transpose()?.map_or_else(S::default, Cow::into_owned);
    for set in sets {
        merge(&mut merged, &*set?);
    }
    Ok(merged)
}

fn right<T>(result: Result<T, Infallible>) -> T {
    result.unwrap_or_else(|never| match never {})
}

macro_rules! merges {
    ($([$($generic:tt)*] $Item:ty => $Output:ty, $item:expr, $result:expr;)*) => {
        $(
            impl<$($generic)* I: IntoIterator<Item = $Item>> MultiOps<$Item> for I {
                type Output = $Output;

                fn union(self) -> Self::Output {
                    $result(merge(self.into_iter().map($item), |set, other| *set |= other))
                }

                fn intersection(self) -> Self::Output {
                    $result(merge(self.into_iter().map($item), |set, other| *set &= other))
                }

                fn difference(self) -> Self::Output {
                    $result(merge(self.into_iter().map($item), |set, other| *set -= other))
                }

                fn symmetric_difference(self) -> Self::Output {
                    $result(merge(self.into_iter().map($item), |set, other| *set ^= other))
                }
            }
        )*
    };
}

macro_rules! merges_of {
    ($($Set:ident)*) => {
        $(
            merges! {
                [] $Set => $Set, |set| Ok(Cow::Owned(set)), right;
                ['a,] &'a $Set => $Set, |set| Ok(Cow::Borrowed(set)), right;
                [E,] Result<$Set, E> => Result<$Set, E>, |set| set.map(Cow::Owned), |made| made;
                ['a, E,] Result<&'a $Set, E> => Result<$Set, E>, |set| set.map(Cow::Borrowed), |made| made;
            }
        )*
    };
}

merges_of!(RoaringBitmap RoaringTreemap);
