//! A million random calls, from a fixed seed, on sets of this library and of the crate `bit-set`, over blocks of 32 and of
//! 64 bits.
use clients::Draws;
use peer::BitSet as Peer;

const SETS: usize = 4;

macro_rules! beside {
    ($($name:ident over $block:ty, seed $seed:literal;)*) => {
        $(
            #[test]
            fn $name() {
                let mut draws = Draws($seed);
                let mut ours: Vec<bit_set::BitSet<$block>> = (0..SETS).map(|_| Default::default()).collect();
                let mut theirs: Vec<Peer<$block>> = (0..SETS).map(|_| Default::default()).collect();
                for _ in 0..500_000 {
                    let call = draws.below(1000);
                    let (i, j) = (draws.below(SETS), draws.below(SETS));
                    let bound = [70, 600, 5000][draws.below(3)];
                    let value = draws.below(bound);
                    let (x, y) = (&mut ours[i], &mut theirs[i]);
                    match call {
                        0..=449 => assert_eq!(x.insert(value), y.insert(value)),
                        450..=769 => assert_eq!(x.remove(value), y.remove(value)),
                        770..=929 => assert_eq!(x.contains(value), y.contains(value)),
                        930..=959 => assert_eq!((x.len(), x.is_empty()), (y.len(), y.is_empty())),
                        960..=964 => assert!(x.iter().eq(y.iter())),
                        965..=969 => {
                            x.shrink_to_fit();
                            // For an empty set `bit-set` keeps the length of a block that it does not have.
                            if !y.is_empty() {
                                y.shrink_to_fit();
                            }
                        }
                        970..=974 => {
                            x.reserve_len(value);
                            y.reserve_len(value);
                        }
                        975 => {
                            x.clear();
                            y.clear();
                        }
                        _ if i == j => assert!(x.is_subset(x) && y.is_subset(y)),
                        _ => {
                            let (a, b) = (x.clone(), y.clone());
                            let (x, y) = (&mut ours[j], &mut theirs[j]);
                            match call {
                                976..=979 => (x.union_with(&a), y.union_with(&b)),
                                980..=983 => (x.intersect_with(&a), y.intersect_with(&b)),
                                984..=987 => (x.difference_with(&a), y.difference_with(&b)),
                                988..=991 => (x.symmetric_difference_with(&a), y.symmetric_difference_with(&b)),
                                992..=995 => (x.clone_from(&a), y.clone_from(&b)),
                                _ => ((), ()),
                            };
                            assert!(x.union(&a).eq(y.union(&b)) && x.intersection(&a).eq(y.intersection(&b)));
                            assert!(x.difference(&a).eq(y.difference(&b)));
                            assert!(x.symmetric_difference(&a).eq(y.symmetric_difference(&b)));
                            assert_eq!((x.is_subset(&a), x.is_superset(&a)), (y.is_subset(&b), y.is_superset(&b)));
                            assert_eq!((x.is_disjoint(&a), *x == a, (*x).cmp(&a)), (y.is_disjoint(&b), *y == b, (*y).cmp(&b)));
                        }
                    }
                }
                for (x, y) in ours.iter().zip(&theirs) {
                    assert!(x.iter().eq(y.iter()));
                    assert_eq!(format!("{x:?}"), format!("{y:?}"));
                }
            }
        )*
    };
}

beside! {
    narrow_blocks over u32, seed 1;
    wide_blocks over u64, seed 2;
}
