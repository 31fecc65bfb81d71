//! Random calls on sets of 64-bit numbers, from a fixed seed, compared with std's sets.
mod common;

use common::Draws;
use roaring::{MultiOps, RoaringBitmap, RoaringTreemap};
use std::collections::{BTreeSet, VecDeque};
use std::io::{Cursor, ErrorKind, Read};
use std::ops::Bound::{Excluded, Included, Unbounded};

type Model = BTreeSet<u64>;

impl Draws {
    /// A number that several bitmaps have, and several containers of them.
    fn wide(&mut self) -> u64 {
        match self.below(4) {
            0 => self.below(300) as u64,
            1 => (1 << 32) - 150 + self.below(300) as u64,
            2 => u64::MAX - self.below(70_000) as u64,
            _ => (1 << 50) + self.below(1 << 18) as u64,
        }
    }

    /// A set of a few numbers and stretches.
    fn treemap(&mut self) -> (RoaringTreemap, Model) {
        let numbers: Vec<u64> = (0..self.below(60)).map(|_| self.wide()).collect();
        let (mut set, mut model): (RoaringTreemap, Model) =
            (numbers.iter().collect(), numbers.iter().copied().collect());
        for _ in 0..self.below(4) {
            let (first, length) = (self.wide(), self.below(9000) as u64);
            let last = first.saturating_add(length);
            let step = 1 + self.below(3);
            set.extend((first..=last).step_by(step));
            model.extend((first..=last).step_by(step));
        }
        (set, model)
    }
}

#[track_caller]
fn same(set: &RoaringTreemap, model: &Model) {
    assert!(set.iter().eq(model.iter().copied()));
    assert!(set.iter().rev().eq(model.iter().rev().copied()));
    assert_eq!((set.len(), set.is_empty()), (model.len() as u64, model.is_empty()));
    assert_eq!((set.min(), set.max()), (model.first().copied(), model.last().copied()));
}

#[test]
fn calls_on_one_set() {
    let (mut draws, mut set, mut model) = (Draws(1), RoaringTreemap::new(), Model::new());
    same(&set, &model);
    for _ in 0..20_000 {
        let value = draws.wide();
        match draws.below(5) {
            0 | 1 => assert_eq!(set.insert(value), model.insert(value)),
            2 => assert_eq!(set.remove(value), model.remove(&value)),
            3 => assert_eq!(set.push(value), model.last().map_or(true, |&last| value > last) && model.insert(value)),
            _ => assert_eq!(set.contains(value), model.contains(&value)),
        }
    }
    same(&set, &model);
    let copy = set.clone();
    set.clear();
    same(&set, &Model::new());
    same(&copy, &model);
}

#[test]
fn ranks() {
    let mut draws = Draws(2);
    for _ in 0..20 {
        let (set, model) = draws.treemap();
        let value = draws.wide();
        let below = model.range(..=value).count();
        assert_eq!(set.rank(value), below as u64);
        assert_eq!(set.select(below as u64), model.iter().nth(below).copied());
        assert_eq!(set.rank(u64::MAX), set.len());
    }
}

#[test]
fn ranges() {
    let mut draws = Draws(6);
    for _ in 0..40 {
        let (mut set, mut model) = draws.treemap();
        let first = draws.wide();
        let last = first.saturating_add(draws.below(9000) as u64);
        let inside: Vec<u64> = model.range(first..=last).copied().collect();
        let numbers = last - first + 1;
        assert_eq!(set.range_cardinality(first..=last), inside.len() as u64);
        assert_eq!(set.contains_range(first..=last), inside.len() as u64 == numbers);
        assert!(set.range(first..=last).eq(inside.iter().copied()));
        assert!(set.clone().into_range(first..=last).rev().eq(inside.iter().rev().copied()));
        assert_eq!(set.range((Excluded(last), Unbounded)).len(), model.range((Excluded(last), Unbounded)).count());
        assert!(set.range(..first).eq(model.range(..first).copied()));
        assert_eq!(set.insert_range(first..=last), numbers - inside.len() as u64);
        model.extend(first..=last);
        same(&set, &model);
        assert!(set.contains_range(first..=last) && !set.is_full());
        assert_eq!(set.remove_range((Included(first), Excluded(last))), numbers - 1);
        model.retain(|&member| member < first || member >= last);
        same(&set, &model);
        assert_eq!(set.remove_range(..), model.len() as u64);
        same(&set, &Model::new());
    }
}

#[test]
fn ends_of_ranges() {
    let mut set = RoaringTreemap::new();
    #[allow(clippy::reversed_empty_ranges)]
    let none = 9..3;
    assert_eq!((set.insert_range(none.clone()), set.remove_range(5..5), set.range_cardinality(none.clone())), (0, 0, 0));
    assert!(set.contains_range(none) && set.contains_range((Excluded(u64::MAX), Unbounded)) && !set.contains_range(..));
    assert_eq!(set.insert_range(u64::MAX - 2..), 3);
    assert_eq!(set.insert_range(u64::MAX..), 0);
    assert!(set.contains_range(u64::MAX - 2..) && !set.contains_range(u64::MAX - 3..));
    assert!(set.range(..).eq([u64::MAX - 2, u64::MAX - 1, u64::MAX]));
    assert_eq!(set.remove_range(u64::MAX..=u64::MAX), 1);
    assert_eq!(set.range_cardinality(..), 2);
    assert!(set.range(u64::MAX - 1..).eq([u64::MAX - 1]));
    // Several bitmaps, of which one is whole.
    let mut wide = RoaringTreemap::new();
    assert_eq!(wide.insert_range((1 << 32) - 3..(2 << 32) + 2), (1 << 32) + 5);
    assert_eq!((wide.len(), wide.min(), wide.max()), ((1 << 32) + 5, Some((1 << 32) - 3), Some((2 << 32) + 1)));
    assert_eq!(wide.range((2 << 32) - 1..).count(), 3);
    assert_eq!(wide.remove_range((1 << 32) - 1..(2 << 32)), (1 << 32) + 1);
    assert_eq!(wide, [(1 << 32) - 3, (1 << 32) - 2, 2 << 32, (2 << 32) + 1].into());
}

#[test]
fn many_sets() {
    let sets = [RoaringTreemap::from([1, 1 << 40, 7]), RoaringTreemap::from([1 << 40, 7, 8]), RoaringTreemap::from([7])];
    assert_eq!(sets.iter().union(), RoaringTreemap::from([1, 7, 8, 1 << 40]));
    assert_eq!(sets.iter().intersection(), RoaringTreemap::from([7]));
    assert_eq!(sets.iter().difference(), RoaringTreemap::from([1]));
    assert_eq!(sets.clone().symmetric_difference(), RoaringTreemap::from([1, 7, 8]));
    let results = [Ok(&sets[0]), Err("no set")];
    assert_eq!(results.union(), Err("no set"));
    assert_eq!(sets.map(Ok::<_, ErrorKind>).union().unwrap().len(), 4);
    assert_eq!(Vec::<RoaringTreemap>::new().union(), RoaringTreemap::new());
}

#[test]
fn bitmaps() {
    let few = RoaringBitmap::from([3, 4]);
    let made = RoaringTreemap::from_bitmaps([(7, [9].into()), (0, few.clone()), (2, RoaringBitmap::new()), (7, few.clone())]);
    assert_eq!(made, [3, 4, (7 << 32) + 3, (7 << 32) + 4].into());
    assert_eq!([(u32::MAX, few)].into_iter().collect::<RoaringTreemap>().min(), Some(u64::MAX << 32 | 3));
    assert_eq!(RoaringTreemap::from_bitmaps([]), RoaringTreemap::new());
}

#[test]
fn two_sets() {
    let mut draws = Draws(3);
    for _ in 0..40 {
        let ((a, model_a), (b, model_b)) = (draws.treemap(), draws.treemap());
        let (union, common): (Model, Model) = (&model_a | &model_b, &model_a & &model_b);
        let (difference, either): (Model, Model) = (&model_a - &model_b, &model_a ^ &model_b);
        for (made, model) in
            [(&a | &b, &union), (a.clone() | b.clone(), &union), (&a & &b, &common), (&a - &b, &difference)]
        {
            same(&made, model);
        }
        same(&(&a ^ b.clone()), &either);
        let mut c = a.clone();
        c |= &b;
        same(&c, &union);
        c -= &b;
        same(&c, &difference);
        c ^= b.clone();
        same(&c, &union);
        c &= &a;
        assert!(c == a && c.is_subset(&a) && a.is_superset(&c));
        assert_eq!(a.is_disjoint(&b), common.is_empty());
        assert_eq!(a.is_subset(&b), model_a.is_subset(&model_b));
        assert_eq!((a.union_len(&b), a.intersection_len(&b)), (union.len() as u64, common.len() as u64));
        assert_eq!(
            (a.difference_len(&b), a.symmetric_difference_len(&b)),
            (difference.len() as u64, either.len() as u64)
        );
    }
}

#[test]
fn iterators() {
    let mut draws = Draws(4);
    for _ in 0..40 {
        let (set, model) = draws.treemap();
        let (mut walk, mut left): (_, VecDeque<u64>) = (set.iter(), model.iter().copied().collect());
        while !left.is_empty() {
            if draws.below(50) == 0 {
                let value = draws.wide();
                if draws.below(2) == 0 {
                    walk.advance_to(value);
                    left.retain(|&member| member >= value);
                } else {
                    walk.advance_back_to(value);
                    left.retain(|&member| member <= value);
                }
            }
            assert_eq!(walk.size_hint(), (left.len(), Some(left.len())));
            for _ in 0..draws.below(500) {
                let (one, other) = if draws.below(2) == 0 {
                    (walk.next(), left.pop_front())
                } else {
                    (walk.next_back(), left.pop_back())
                };
                assert_eq!(one, other);
            }
        }
        assert_eq!((walk.next(), walk.next_back(), walk.len()), (None, None, 0));
        assert_eq!(set.iter().count(), model.len());
        let mut owned = set.into_iter();
        owned.advance_to(1 << 32);
        owned.advance_back_to(1 << 50);
        assert!(owned.eq(model.range(1 << 32..=1 << 50).copied()));
    }
}

#[test]
fn numbers_that_ascend() {
    let mut set = RoaringTreemap::from_sorted_iter([1, 5, 1 << 40]).unwrap();
    assert_eq!(set.append([1 << 41, u64::MAX]), Ok(2));
    assert_eq!(set.append([0]).unwrap_err().valid_until(), 0);
    assert_eq!(RoaringTreemap::from_sorted_iter([3, 4, 4, 9]).unwrap_err().valid_until(), 2);
    assert_eq!(RoaringTreemap::from_sorted_iter(0..1000).unwrap().len(), 1000);
    assert_eq!(set, [u64::MAX, 1 << 41, 1 << 40, 5, 1].into());
    assert!(!set.push(u64::MAX));
}

fn bytes_of(set: &RoaringTreemap) -> Vec<u8> {
    let mut bytes = Vec::new();
    set.serialize_into(&mut bytes).unwrap();
    assert_eq!(bytes.len(), set.serialized_size());
    bytes
}

#[test]
fn bytes() {
    // How many bitmaps there are, and for each its key, the form's number, one container, its key and how many members it
    // has besides one, its place, and its members.
    let written = [
        2, 0, 0, 0, 0, 0, 0, 0, //
        0, 0, 0, 0, 58, 48, 0, 0, 1, 0, 0, 0, 0, 0, 1, 0, 16, 0, 0, 0, 3, 0, 4, 0, //
        1, 0, 0, 0, 58, 48, 0, 0, 1, 0, 0, 0, 0, 0, 0, 0, 16, 0, 0, 0, 7, 0,
    ];
    assert_eq!(bytes_of(&[3, 4, (1 << 32) + 7].into()), written);
    assert_eq!(bytes_of(&RoaringTreemap::new()), [0; 8]);
    let mut draws = Draws(5);
    let (mut all, mut sets) = (Vec::new(), Vec::new());
    for _ in 0..20 {
        let (set, _) = draws.treemap();
        let bytes = bytes_of(&set);
        let cut = draws.below(bytes.len());
        assert_eq!(RoaringTreemap::deserialize_from(&bytes[..cut]).unwrap_err().kind(), ErrorKind::UnexpectedEof);
        all.extend(bytes);
        all.push(77);
        sets.push(set);
    }
    let mut reader = Cursor::new(all);
    for set in sets {
        assert_eq!(RoaringTreemap::deserialize_from(&mut reader).unwrap(), set);
        let mut next = [0];
        reader.read_exact(&mut next).unwrap();
        assert_eq!(next, [77]);
    }
    // The second key is not above the first, and the first bitmap is of another form.
    for (at, byte) in [(32, 0), (12, 1)] {
        let mut broken = written;
        broken[at] = byte;
        assert_eq!(RoaringTreemap::deserialize_from(&broken[..]).unwrap_err().kind(), ErrorKind::InvalidData);
    }
    let empty_bitmap = [1, 0, 0, 0, 0, 0, 0, 0, 9, 0, 0, 0, 58, 48, 0, 0, 0, 0, 0, 0];
    assert_eq!(RoaringTreemap::deserialize_from(&empty_bitmap[..]).unwrap_err().kind(), ErrorKind::InvalidData);
}

#[test]
fn texts() {
    let set = RoaringTreemap::from([3, 1 << 40]);
    assert_eq!(format!("{set:?}"), "RoaringTreemap<[3, 1099511627776]>");
    assert_eq!(format!("{:?}", (5..100).collect::<RoaringTreemap>()), "RoaringTreemap<95 values between 5 and 99>");
    assert_eq!(format!("{:?}", RoaringTreemap::default()), "RoaringTreemap<[]>");
}
