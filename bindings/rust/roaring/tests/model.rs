//! Random calls, from a fixed seed, compared with std's sets.
mod common;

use common::Draws;
use roaring::{MultiOps, RoaringBitmap};
use std::collections::{BTreeSet, VecDeque};
use std::ops::Bound::{Excluded, Included, Unbounded};
use std::thread;

type Model = BTreeSet<u32>;

impl Draws {
    /// A number that lists, blocks, runs and several containers have.
    fn number(&mut self) -> u32 {
        match self.below(4) {
            0 => self.below(300) as u32,
            1 => 65_400 + self.below(300) as u32,
            2 => u32::MAX - self.below(70_000) as u32,
            _ => self.below(1 << 18) as u32,
        }
    }

    /// A set of a few numbers and stretches, in any forms.
    fn set(&mut self) -> (RoaringBitmap, Model) {
        let numbers: Vec<u32> = (0..self.below(60)).map(|_| self.number()).collect();
        let (mut set, mut model): (RoaringBitmap, Model) =
            (numbers.iter().collect(), numbers.iter().copied().collect());
        for _ in 0..self.below(4) {
            let (first, length) = (self.number(), self.below(9000) as u32);
            let last = first.saturating_add(length);
            let step = 1 + self.below(3);
            set.extend((first..=last).step_by(step));
            model.extend((first..=last).step_by(step));
        }
        match self.below(3) {
            0 => drop(set.optimize()),
            1 => drop(set.remove_run_compression()),
            _ => {}
        }
        (set, model)
    }
}

#[track_caller]
fn same(set: &RoaringBitmap, model: &Model) {
    assert!(set.iter().eq(model.iter().copied()));
    assert!(set.iter().rev().eq(model.iter().rev().copied()));
    assert_eq!((set.len(), set.is_empty()), (model.len() as u64, model.is_empty()));
    assert_eq!((set.min(), set.max()), (model.first().copied(), model.last().copied()));
}

#[test]
fn calls_on_one_set() {
    let (mut draws, mut set, mut model) = (Draws(1), RoaringBitmap::new(), Model::new());
    same(&set, &model);
    for _ in 0..50_000 {
        let value = draws.number();
        match draws.below(5) {
            0 | 1 => assert_eq!(set.insert(value), model.insert(value)),
            2 => assert_eq!(set.remove(value), model.remove(&value)),
            3 => assert_eq!(set.push(value), model.last().map_or(true, |&last| value > last) && model.insert(value)),
            _ => assert_eq!(set.contains(value), model.contains(&value)),
        }
    }
    same(&set, &model);
    let copy = set.clone();
    set.clear();
    same(&set, &Model::new());
    same(&copy, &model);
}

#[test]
fn ranges() {
    let mut draws = Draws(2);
    for _ in 0..40 {
        let (mut set, mut model) = draws.set();
        let (a, b) = (draws.number(), draws.number());
        let (start, end) = (a.min(b), a.max(b).min(a.min(b).saturating_add(70_000)));
        let inside: Vec<u32> = model.range(start..end).copied().collect();
        assert_eq!(set.range_cardinality(start..end), inside.len() as u64);
        assert_eq!(set.contains_range(start..end), inside.len() as u32 == end - start);
        assert!(set.range(start..end).eq(inside.iter().copied()));
        assert!(set.range(start..end).rev().eq(inside.iter().rev().copied()));
        assert!(set.range((Excluded(start), Unbounded)).eq(model.range((Excluded(start), Unbounded)).copied()));
        assert!(set.range((Unbounded, Included(start))).eq(model.range((Unbounded, Included(start))).copied()));
        assert!(set.clone().into_range(start..=end).eq(model.range(start..=end).copied()));
        if draws.below(2) == 0 {
            assert_eq!(set.insert_range(start..end), u64::from(end - start) - inside.len() as u64);
            model.extend(start..end);
        } else {
            assert_eq!(set.remove_range(start..end), inside.len() as u64);
            model.retain(|&member| member < start || member >= end);
        }
        same(&set, &model);
        let (rank, n) = (draws.number(), draws.below(model.len() + 2));
        assert_eq!(set.rank(rank), model.range(..=rank).count() as u64);
        assert_eq!(set.select(n as u32), model.iter().nth(n).copied());
        let mut few = set.clone();
        few.remove_smallest(n as u64);
        same(&few, &model.iter().skip(n).copied().collect());
        set.remove_biggest(n as u64);
        same(&set, &model.iter().rev().skip(n).copied().collect());
    }
}

#[test]
// The ranges are empty on purpose.
#[allow(clippy::reversed_empty_ranges)]
fn empty_and_whole_ranges() {
    let mut set = RoaringBitmap::full();
    assert!(set.is_full() && set.len() == 1 << 32 && set.contains_range(..) && set.select(u32::MAX) == Some(u32::MAX));
    assert_eq!(set.iter().size_hint().1, Some(1 << 32));
    assert_eq!((set.remove_range(9..9), set.remove_range(9..3), set.insert_range(..)), (0, 0, 0));
    set.remove_biggest(0);
    set.remove_smallest(0);
    assert!(set.is_full());
    set.remove_biggest((1 << 32) - 3);
    assert!(set.iter().eq([0, 1, 2]));
    assert!(set.contains_range(7..7) && set.range(3..1).next().is_none() && set.range(3..1).next_back().is_none());
    set.remove_smallest(1 << 32);
    assert!(set.is_empty() && !set.is_full());
    assert_eq!(set, RoaringBitmap::default());
    assert_eq!(RoaringBitmap::new().remove_range(..), 0);
}

#[test]
fn walks_from_both_ends() {
    let mut draws = Draws(3);
    for _ in 0..300 {
        let (set, model) = draws.set();
        let (mut walk, mut owning) = (set.iter(), set.clone().into_iter());
        let mut expected: VecDeque<u32> = model.into_iter().collect();
        let (front, advances) = (draws.below(40), [40, 1000][draws.below(2)]);
        for _ in 0..draws.below(600) {
            let number = draws.number();
            match draws.below(advances) {
                0 => {
                    walk.advance_to(number);
                    owning.advance_to(number);
                    expected.retain(|&member| member >= number);
                }
                1 => {
                    walk.advance_back_to(number);
                    owning.advance_back_to(number);
                    expected.retain(|&member| member <= number);
                }
                n if n % 40 < front => {
                    let first = expected.pop_front();
                    assert_eq!((walk.next(), owning.next()), (first, first));
                }
                _ => {
                    let last = expected.pop_back();
                    assert_eq!((walk.next_back(), owning.next_back()), (last, last));
                }
            }
            assert_eq!((walk.len(), owning.len()), (expected.len(), expected.len()));
        }
        assert!(walk.rev().eq(expected.iter().rev().copied()));
        assert_eq!(owning.clone().count(), expected.len());
        assert!(owning.eq(expected));
    }
}

#[test]
fn two_sets() {
    let mut draws = Draws(4);
    for _ in 0..40 {
        let ((x, a), (y, b)) = (draws.set(), draws.set());
        assert_eq!((x.is_subset(&y), x.is_superset(&y)), (a.is_subset(&b), a.is_superset(&b)));
        assert_eq!((x.is_disjoint(&y), x == y), (a.is_disjoint(&b), a == b));
        assert_eq!((x.union_len(&y), x.intersection_len(&y)), ((&a | &b).len() as u64, (&a & &b).len() as u64));
        assert_eq!(x.difference_len(&y), (&a - &b).len() as u64);
        assert_eq!(x.symmetric_difference_len(&y), (&a ^ &b).len() as u64);
        let both = &x & &y;
        same(&both, &(&a & &b));
        assert!(both.is_subset(&x) && both.is_superset(&(&y & &x)));
        macro_rules! each_way {
            ($operator:tt, $assign:tt) => {
                let expected = &a $operator &b;
                same(&(&x $operator &y), &expected);
                same(&(x.clone() $operator &y), &expected);
                same(&(&x $operator y.clone()), &expected);
                same(&(x.clone() $operator y.clone()), &expected);
                let (mut changed, mut taking) = (x.clone(), x.clone());
                changed $assign &y;
                taking $assign y.clone();
                same(&changed, &expected);
                same(&taking, &expected);
            };
        }
        each_way!(|, |=);
        each_way!(&, &=);
        each_way!(-, -=);
        each_way!(^, ^=);
    }
}

#[test]
fn merges_of_many() {
    let mut draws = Draws(5);
    for count in 0..40 {
        let (sets, models): (Vec<RoaringBitmap>, Vec<Model>) = (0..count % 6).map(|_| draws.set()).unzip();
        let merge = |each: fn(Model, &Model) -> Model| {
            let mut models = models.iter();
            let first = models.next().cloned().unwrap_or_default();
            models.fold(first, each)
        };
        let expected = merge(|a, b| &a | b);
        same(&sets.iter().union(), &expected);
        same(&sets.clone().union(), &expected);
        same(&sets.iter().map(Ok::<_, ()>).union().unwrap(), &expected);
        same(&sets.clone().into_iter().map(Ok::<_, ()>).union().unwrap(), &expected);
        same(&sets.iter().intersection(), &merge(|a, b| &a & b));
        same(&sets.iter().difference(), &merge(|a, b| &a - b));
        same(&sets.iter().symmetric_difference(), &merge(|a, b| &a ^ b));
        same(&sets.iter().chain(&sets).union(), &expected);
        let mut results: Vec<Result<&RoaringBitmap, &str>> = sets.iter().map(Ok).collect();
        results.push(Err("broken"));
        assert_eq!(results.union(), Err("broken"));
    }
}

#[test]
fn numbers_that_ascend_or_not() {
    let mut set = RoaringBitmap::from_sorted_iter((0..3_000_000).step_by(3)).unwrap();
    assert!(set.iter().eq((0..3_000_000).step_by(3)));
    assert_eq!(set.append(5_000_000..5_000_700), Ok(700));
    let fault = set.append((6_000_000..6_000_600).chain([9])).unwrap_err();
    assert_eq!((fault.valid_until(), set.max()), (600, Some(6_000_599)));
    assert_eq!(fault.to_string(), "integers are ordered up to the 600th element");
    assert_eq!(RoaringBitmap::from_sorted_iter([4, 4]).unwrap_err().valid_until(), 1);
    assert!(set.try_push(6_000_599).is_err() && set.try_push(6_000_600).is_ok());
    let any: RoaringBitmap = (0..10_000).map(|n: u32| n.wrapping_mul(2_654_435_761)).collect();
    let expected: Model = (0..10_000).map(|n: u32| n.wrapping_mul(2_654_435_761)).collect();
    same(&any, &expected);
    same(&RoaringBitmap::from([5, 1, 5]), &[1, 5].into());
}

#[test]
fn what_debug_writes() {
    let few = RoaringBitmap::from_iter(0..15);
    assert_eq!(format!("{few:?}"), format!("RoaringBitmap<{:?}>", Vec::from_iter(0..15)));
    let many = RoaringBitmap::from_iter([7, 9].into_iter().chain(50..64));
    assert_eq!(format!("{many:?}"), "RoaringBitmap<16 values between 7 and 63>");
    assert_eq!(format!("{:?}", RoaringBitmap::new()), "RoaringBitmap<[]>");
}

#[test]
fn statistics() {
    let mut set = RoaringBitmap::from_iter([1, 2, 70_000]);
    set.extend((200_000..210_000).step_by(2));
    set.insert_range(1 << 20..1 << 21);
    let counts = set.statistics();
    assert_eq!((counts.n_array_containers, counts.n_bitset_containers, counts.n_run_containers), (2, 1, 16));
    assert_eq!((counts.n_values_array_containers, counts.n_values_bitset_containers), (3, 5000));
    assert_eq!((counts.n_values_run_containers, counts.n_containers), (1 << 20, 19));
    assert_eq!((counts.n_bytes_array_containers, counts.n_bytes_bitset_containers), (6, 8192));
    assert_eq!((counts.cardinality, counts.min_value, counts.max_value), (set.len(), Some(1), set.max()));
}

#[test]
fn sets_go_to_other_threads() {
    let set = RoaringBitmap::from_iter(0..100_000);
    let counts: Vec<u64> = thread::scope(|scope| {
        let readers: Vec<_> = (0..3)
            .map(|n| {
                scope.spawn({
                    let set = &set;
                    move || set.rank(n)
                })
            })
            .collect();
        readers.into_iter().map(|reader| reader.join().unwrap()).collect()
    });
    assert_eq!(counts, [1, 2, 3]);
    thread::spawn(move || drop(set)).join().unwrap();
}
