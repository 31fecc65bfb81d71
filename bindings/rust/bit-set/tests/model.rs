//! Random calls, from a fixed seed, compared with std's sets.
mod common;

use bit_set::{BitBlock, BitSet};
use common::{Draws, over_both_widths};
use std::cell::RefCell;
use std::collections::BTreeSet;
use std::thread;

fn same(set: &BitSet, model: &BTreeSet<usize>) {
    assert!(set.iter().eq(model.iter().copied()));
    assert_eq!(set.len(), model.len());
    assert_eq!(set.is_empty(), model.is_empty());
}

fn walks_over_both<B: BitBlock>(x: &BitSet<B>, y: &BitSet<B>, a: &BTreeSet<usize>, b: &BTreeSet<usize>) {
    assert!(x.union(y).eq(a.union(b).copied()));
    assert!(x.intersection(y).eq(a.intersection(b).copied()));
    assert!(x.difference(y).eq(a.difference(b).copied()));
    assert!(x.symmetric_difference(y).eq(a.symmetric_difference(b).copied()));
}

#[test]
fn calls_on_one_set() {
    let (mut draws, mut set, mut model) = (Draws(1), BitSet::new(), BTreeSet::new());
    for _ in 0..100_000 {
        let bound = [70, 5000][draws.below(2)];
        let value = draws.below(bound);
        match draws.below(4) {
            0 | 1 => assert_eq!(set.insert(value), model.insert(value)),
            2 => assert_eq!(set.remove(value), model.remove(&value)),
            _ => assert_eq!(set.contains(value), model.contains(&value)),
        }
    }
    same(&set, &model);
    assert_eq!(format!("{set:?}"), format!("{model:?}"));
    set.shrink_to_fit();
    same(&set, &model);
    let high = set.split_off(2500);
    same(&high, &model.split_off(&2500));
    same(&set, &model);
}

#[test]
fn calls_on_two_sets() {
    let mut draws = Draws(2);
    for _ in 0..2000 {
        let mut draw = || -> BTreeSet<usize> {
            let bound = [8, 300][draws.below(2)];
            (0..draws.below(40)).map(|_| draws.below(bound)).collect()
        };
        let (a, b) = (draw(), draw());
        let (x, y): (BitSet, BitSet) = (a.iter().copied().collect(), b.iter().copied().collect());
        walks_over_both(&x, &y, &a, &b);
        assert_eq!(x.is_subset(&y), a.is_subset(&b));
        assert_eq!(x.is_superset(&y), a.is_superset(&b));
        assert_eq!(x.is_disjoint(&y), a.is_disjoint(&b));
        assert_eq!((x == y, x.cmp(&y)), (a == b, a.cmp(&b)));
        assert_eq!((x.union_count(&y), x.intersection_count(&y)), (a.union(&b).count(), a.intersection(&b).count()));
        assert_eq!(x.difference_count(&y), a.difference(&b).count());
        assert_eq!(x.symmetric_difference_count(&y), a.symmetric_difference(&b).count());
        let mut z = x.clone();
        z.union_with(&y);
        same(&z, &a.union(&b).copied().collect());
        z.clone_from(&x);
        z.intersect_with(&y);
        same(&z, &a.intersection(&b).copied().collect());
        z.clone_from(&x);
        z.difference_with(&y);
        same(&z, &a.difference(&b).copied().collect());
        z.clone_from(&x);
        z.symmetric_difference_with(&y);
        same(&z, &a.symmetric_difference(&b).copied().collect());
        let mut w = y.clone();
        z.clone_from(&x);
        z.append(&mut w);
        same(&z, &a.union(&b).copied().collect());
        assert!(w.is_empty());
    }
}

fn operators<B: BitBlock>() {
    let mut draws = Draws(7);
    for _ in 0..300 {
        let mut draw = || -> Vec<usize> {
            let bound = [8, 300, 100_000][draws.below(3)];
            (0..draws.below(40)).map(|_| draws.below(bound)).collect()
        };
        let (xs, ys) = (draw(), draw());
        let (x, y) = (BitSet::<B>::from(&xs[..]), BitSet::<B>::from(&ys[..]));
        let (a, b): (BTreeSet<usize>, BTreeSet<usize>) = (xs.into_iter().collect(), ys.into_iter().collect());
        assert!((&x | &y).iter().eq(&a | &b));
        assert!((&x & &y).iter().eq(&a & &b));
        assert!((&x - &y).iter().eq(&a - &b));
        assert!((&x ^ &y).iter().eq(&a ^ &b));
        assert_eq!((&x & &y).as_slice().len(), x.as_slice().len().min(y.as_slice().len()));
        assert_eq!((&x - &y).as_slice().len(), x.as_slice().len());
        assert_eq!((x.is_subset(&y), x.is_superset(&y)), (a.is_subset(&b), a.is_superset(&b)));
        let itself = &x;
        assert_eq!((x == y, &x & itself == x, (&x - itself).is_empty()), (a == b, true, true));
    }
}

over_both_widths!(operators_over_both_widths, operators);

#[test]
fn results_have_the_memory_of_the_shorter_set() {
    let (few, far) = (BitSet::<u32>::from([1, 5, 9]), BitSet::from([5, 10_000_000]));
    let made = [&few & &far, &far & &few, &few - &far];
    assert!(made.iter().all(|set| set.capacity() <= 1024));
    assert_eq!(made, [BitSet::from([5]), BitSet::from([5]), BitSet::from([1, 9])]);
    assert_eq!(BitSet::<u32>::from([]).capacity(), 0);
}

#[test]
#[should_panic(expected = "usize::MAX is no element")]
fn a_set_of_what_is_no_element() {
    let _ = BitSet::<u32>::from([1, usize::MAX]);
}

#[test]
fn appending_no_elements_makes_no_set() {
    let (mut a, mut b) = (BitSet::new(), BitSet::new());
    a.append(&mut b);
    assert_eq!((a.capacity(), b.capacity()), (0, 0));
    b.insert(70);
    a.append(&mut b);
    b.append(&mut a);
    a.append(&mut BitSet::new());
    assert!(a.is_empty() && b.iter().eq([70]));
}

// A range, which is empty if its end is below its start.
fn range(draws: &mut Draws) -> std::ops::Range<usize> {
    let bound = [70, 700][draws.below(2)];
    draws.below(bound)..draws.below(bound)
}

fn calls_on_ranges<B: BitBlock>() {
    let (mut draws, mut set, mut model) = (Draws(3), BitSet::<B>::new_general(), BTreeSet::new());
    for _ in 0..3000 {
        let range = range(&mut draws);
        let inside: Vec<usize> = range.clone().filter(|n| model.contains(n)).collect();
        assert_eq!(set.count_in_range(range.clone()), inside.len());
        assert_eq!(set.contains_all_in_range(range.clone()), inside.len() == range.len());
        assert_eq!(set.contains_any_in_range(range.clone()), !inside.is_empty());
        assert_eq!(set.same_in_range(&BitSet::default(), range.clone()), inside.is_empty());
        match draws.below(4) {
            0 => {
                set.insert_range(range.clone());
                model.extend(range);
            }
            1 => {
                set.toggle_range(range.clone());
                range.for_each(|n| assert!(model.remove(&n) || model.insert(n)));
            }
            _ => {
                set.remove_range(range.clone());
                model.retain(|n| !range.contains(n));
            }
        }
        assert!(set.iter().eq(model.iter().copied()));
    }
}

over_both_widths!(calls_on_ranges_over_both_widths, calls_on_ranges);

#[test]
fn calls_on_ends_and_searches() {
    let (mut draws, mut set, mut model) = (Draws(4), BitSet::new(), BTreeSet::new());
    for _ in 0..30_000 {
        let n = draws.below(900);
        match draws.below(6) {
            0 | 1 => assert_eq!(set.toggle(n), !model.remove(&n) && model.insert(n)),
            2 => assert_eq!(set.set(n, true), model.insert(n)),
            3 => assert_eq!(set.set(n, false), model.remove(&n)),
            4 => assert_eq!(set.pop_first(), model.pop_first()),
            _ => assert_eq!(set.pop_last(), model.pop_last()),
        }
        assert_eq!((set.first(), set.last()), (model.first().copied(), model.last().copied()));
        assert_eq!(set.next(n), model.range(n..).next().copied());
        assert_eq!(set.previous(n), model.range(..n).next_back().copied());
        assert_eq!(set.next_missing(n), (n..).find(|m| !model.contains(m)).unwrap());
        let rank = draws.below(40);
        assert_eq!(set.nth(rank), model.iter().nth(rank).copied());
    }
    let copy = BitSet::<u64>::from_bytes_general(&set.to_bytes());
    assert!(copy.iter().eq(model.iter().copied()));
    let copy = BitSet::<u64>::from_bytes_lsb_general(&set.to_bytes_lsb());
    assert!(copy.iter().eq(model.iter().copied()));
    assert!(BitSet::from_bytes_lsb(&[0b0101_0010, 1]).iter().eq([1, 4, 6, 8]));
}

fn walks_from_both_ends<B: BitBlock>() {
    let mut draws = Draws(5);
    for _ in 0..300 {
        let bound = [70, 5000, 100_000][draws.below(3)];
        let model: BTreeSet<usize> = (0..draws.below(90)).map(|_| draws.below(bound)).collect();
        let set: BitSet<B> = model.iter().copied().collect();
        assert!(set.iter().rev().eq(model.iter().rev().copied()));
        let (mut walk, mut other) = (set.iter(), model.iter().copied());
        for _ in 0..model.len() + 3 {
            match draws.below(2) {
                0 => assert_eq!(walk.next(), other.next()),
                _ => assert_eq!(walk.next_back(), other.next_back()),
            }
        }
    }
}

over_both_widths!(walks_from_both_ends_over_both_widths, walks_from_both_ends);

fn clone_of_a_walk<B: BitBlock>() {
    let set: BitSet<B> = [1, 70, 3000].into_iter().collect();
    let mut walk = set.iter();
    walk.next();
    let copy = walk.clone();
    assert!(walk.eq([70, 3000]) && copy.eq([70, 3000]));
}

over_both_widths!(clones_of_walks_over_any_blocks, clone_of_a_walk);

fn walks_over_long_sets<B: BitBlock>() {
    let mut draws = Draws(7);
    for _ in 0..60 {
        let mut draw = || -> BTreeSet<usize> {
            let (start, length) = (draws.below(100_000), draws.below(20_000));
            let far = (0..draws.below(30)).map(|_| draws.below(1_000_000)).collect::<Vec<_>>();
            (start..start + length).step_by(1 + draws.below(90)).chain(far).collect()
        };
        let (a, b) = (draw(), draw());
        let (x, y): (BitSet<B>, BitSet<B>) = (a.iter().copied().collect(), b.iter().copied().collect());
        walks_over_both(&x, &y, &a, &b);
        let mut walk = x.iter();
        walk.by_ref().take(a.len() / 2).for_each(drop);
        assert!(walk.clone().eq(a.iter().copied().skip(a.len() / 2)));
        assert_eq!((walk.by_ref().last(), walk.next()), (a.iter().copied().skip(a.len() / 2).last(), None));
    }
}

over_both_widths!(walks_over_long_sets_over_both_widths, walks_over_long_sets);

#[test]
fn blocks_that_are_lent() {
    let mut set: BitSet = [0, 5, 33, 95].into_iter().collect();
    assert_eq!(set.as_slice(), [0b10_0001, 2, 1 << 31]);
    set.truncate(65);
    assert_eq!(set.as_slice(), [0b10_0001, 2, 0]);
    let wide: BitSet<u64> = set.iter().collect();
    assert_eq!(wide.as_slice(), [1 << 33 | 0b10_0001]);
    set.reset();
    assert!(set.as_slice().is_empty() && BitSet::new().as_slice().is_empty());
    assert!(BitSet::with_capacity(0).as_slice().is_empty());
}

#[test]
fn sets_that_are_let_go_and_made_again() {
    let mut draws = Draws(8);
    let (mut sets, mut models) = (Vec::<BitSet>::new(), Vec::<BTreeSet<usize>>::new());
    for _ in 0..3000 {
        let at = draws.below(6);
        match draws.below(4) {
            0 if sets.len() > at => drop((sets.swap_remove(at), models.swap_remove(at))),
            1 if sets.len() > at => {
                sets.push(sets[at].clone());
                models.push(models[at].clone());
            }
            _ if sets.len() < 6 => {
                sets.push(BitSet::new());
                models.push(BTreeSet::new());
            }
            _ => {
                let bound = [60, 1200, 5000][draws.below(3)];
                let value = draws.below(bound);
                assert_eq!(sets[at].insert(value), models[at].insert(value));
            }
        }
        sets.iter().zip(&models).for_each(|(set, model)| same(set, model));
    }
}

#[test]
fn threads_end_with_sets_of_their_own() {
    thread_local! {
        static EARLY: RefCell<BitSet> = RefCell::default();
        static LATE: RefCell<BitSet> = RefCell::default();
    }
    for _ in 0..20 {
        let set: BitSet = (0..40).collect();
        let made = thread::spawn(move || {
            EARLY.with(|early| early.borrow_mut().insert(1));
            drop(set.clone());
            LATE.with(|late| *late.borrow_mut() = set.clone());
            set
        });
        assert!(made.join().unwrap().iter().eq(0..40));
    }
}

#[test]
fn calls_that_tell_of_changes() {
    let mut draws = Draws(6);
    for _ in 0..2000 {
        let mut draw = || -> BTreeSet<usize> { (0..draws.below(12)).map(|_| draws.below(90)).collect() };
        let (a, b, c) = (draw(), draw(), draw());
        let made = |set: &BTreeSet<usize>| set.iter().copied().collect::<BitSet>();
        let check = |merge: &dyn Fn(&mut BitSet) -> bool, result: BTreeSet<usize>| {
            let mut set = made(&a);
            assert_eq!(merge(&mut set), a != result);
            same(&set, &result);
        };
        let (y, z) = (made(&b), made(&c));
        check(&|set| set.union_changes(&y), &a | &b);
        check(&|set| set.intersection_changes(&y), &a & &b);
        check(&|set| set.difference_changes(&y), &a - &b);
        check(&|set| set.symmetric_difference_changes(&y), &a ^ &b);
        check(&|set| set.union_with_difference(&y, &z), &a | &(&b - &c));
        check(&|set| set.union_with_intersection(&y, &z), &a | &(&b & &c));
        check(&|set| set.copy_difference(&y, &z), &b - &c);
    }
}

// A set that has not allocated behaves like any other empty set.
#[test]
fn new_sets() {
    let mut set = BitSet::new();
    let other: BitSet = [3, 5].into_iter().collect();
    assert!(set.is_empty() && set == BitSet::with_capacity(100) && set < other && set.is_subset(&other));
    assert_eq!((set.capacity(), set.bit_length(), set.to_bytes()), (0, 0, vec![]));
    assert_eq!(
        (set.pop_first(), set.pop_last(), set.first(), set.iter().next(), set.iter().next_back()),
        (None, None, None, None, None)
    );
    set.shrink_to_fit();
    set.truncate(3);
    set.reset();
    set.remove_range(0..9);
    assert!(!set.remove(3) && set.clone().is_empty() && set.split_off(2).is_empty());
    assert!(set.union(&other).eq([3, 5]) && other.difference(&set).eq([3, 5]) && other.intersection(&set).eq([]));
    set.append(&mut other.clone());
    assert_eq!(set, other);
    set.clone_from(&BitSet::new());
    assert!(set.is_empty());
}

#[test]
fn threads_read_one_set() {
    let set: BitSet = (0..100_000).step_by(7).collect();
    std::thread::scope(|scope| {
        for _ in 0..4 {
            scope.spawn(|| assert_eq!(set.iter().filter(|&n| set.contains(n)).count(), set.len()));
        }
    });
}

#[test]
#[should_panic(expected = "usize::MAX is no element")]
fn the_greatest_number_is_no_element() {
    BitSet::new().insert(usize::MAX);
}

#[test]
fn calls_on_stretches_and_shifts() {
    let mut draws = Draws(5);
    for _ in 0..2000 {
        let model: BTreeSet<usize> = (0..draws.below(200)).map(|_| draws.below(300)).collect();
        let mut set: BitSet = model.iter().copied().collect();
        let (n, count, distance) = (draws.below(320), draws.below(6), draws.below(90));
        let run = model.range(n..).next().map(|&start| start..(start..).find(|m| !model.contains(m)).unwrap());
        assert_eq!(set.next_run(n), run);
        let free = |gap: &usize| model.range(*gap..*gap + count).next().is_none();
        assert_eq!(set.first_gap(n, count), (n..).find(free));
        assert!(set.copy_range(n..n + distance).iter().eq(model.range(n..n + distance).copied()));
        let lacks_some = model.range(n..).next().is_some();
        assert_eq!(set.copy_range(0..n).is_proper_subset(&set), lacks_some);
        assert!(!set.is_proper_subset(&set));
        set.shift_up(distance);
        assert!(set.iter().eq(model.iter().map(|m| m + distance)));
        set.shift_down(distance + n);
        assert!(set.iter().eq(model.range(n..).map(|m| m - n)));
    }
    assert_eq!(BitSet::new().first_gap(0, usize::MAX), Some(0));
    assert_eq!(BitSet::new().next_run(0), None);
}
