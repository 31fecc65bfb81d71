//! Times calls of the Rust package on sets of several shapes, beside the crate `bit-set` and `HashSet<usize>`, and lists
//! those that take more than five times as long as one of these, and 50 ns more.
use clients::Draws;
use std::collections::HashSet;
use std::hint::black_box;
use std::time::Instant;

const LIMIT: usize = 1_000_000;
const FIVE: [usize; 5] = [3, 18, 40, 60, 99];

type Times = Vec<(&'static str, f64)>;

// The least time of a call in nanoseconds, each time on a new result of `set_up`.
fn least<S, T>(set_up: impl Fn() -> S, mut call: impl FnMut(&mut S) -> T) -> f64 {
    let (mut count, mut best, mut spent, mut rounds) = (1, f64::MAX, 0.0, 0);
    while rounds < 5 || (rounds < 60 && spent < 1e6) {
        let mut made: Vec<S> = (0..count).map(|_| set_up()).collect();
        let mut results = Vec::with_capacity(count);
        let start = Instant::now();
        made.iter_mut().for_each(|set| results.push(call(black_box(set))));
        let taken = start.elapsed().as_secs_f64() * 1e9;
        black_box(&results);
        if taken < 1e4 && count < 200 {
            count *= 2;
            continue;
        }
        best = best.min(taken / count as f64);
        spent += taken;
        rounds += 1;
    }
    best
}

// A `HashSet` counts its elements without iteration.
fn walked<T>(element: T) {
    black_box(element);
}

macro_rules! sides {
    ($($name:ident is $set:ty, $contains:expr, $remove:expr;)*) => {
        $(
            fn $name(a: &[usize], b: &[usize]) -> Times {
                let of = |numbers: &[usize]| numbers.iter().copied().collect::<$set>();
                let (x, y) = (of(a), of(b));
                let (x, y, same) = (&x, &y, &x.clone());
                let kept = || black_box((x, y));
                let (contains, remove): (fn(&$set, usize) -> bool, fn(&mut $set, usize) -> bool) = ($contains, $remove);
                let few = || b.iter().copied().take(100);
                vec![
                    ("default", least(|| (), |_| <$set>::default())),
                    ("collect", least(|| (), |_| of(a))),
                    ("extend", least(|| x.clone(), |set| set.extend(few()))),
                    ("clone", least(kept, |sets| sets.0.clone())),
                    ("clone_from", least(|| y.clone(), |set| set.clone_from(x))),
                    ("len", least(kept, |sets| sets.0.len())),
                    ("is_empty", least(kept, |sets| sets.0.is_empty())),
                    ("contains", least(kept, |sets| few().filter(|&n| contains(sets.0, n)).count())),
                    ("insert", least(|| x.clone(), |set| few().filter(|&n| set.insert(n)).count())),
                    ("remove", least(|| x.clone(), |set| few().filter(|&n| remove(set, n)).count())),
                    ("iter", least(kept, |sets| sets.0.iter().for_each(walked))),
                    ("union", least(kept, |sets| sets.0.union(sets.1).for_each(walked))),
                    ("intersection", least(kept, |sets| sets.0.intersection(sets.1).for_each(walked))),
                    ("difference", least(kept, |sets| sets.0.difference(sets.1).for_each(walked))),
                    ("symmetric_difference", least(kept, |sets| sets.0.symmetric_difference(sets.1).for_each(walked))),
                    ("is_subset", least(kept, |sets| sets.0.is_subset(sets.1))),
                    ("is_subset of a copy", least(|| black_box((x, same)), |sets| sets.0.is_subset(sets.1))),
                    ("is_superset", least(kept, |sets| sets.0.is_superset(sets.1))),
                    ("is_disjoint", least(kept, |sets| sets.0.is_disjoint(sets.1))),
                    ("==", least(kept, |sets| sets.0 == sets.1)),
                    ("== of a copy", least(|| black_box((x, same)), |sets| sets.0 == sets.1)),
                    ("clear", least(|| x.clone(), |set| set.clear())),
                    ("drop", least(|| Some(x.clone()), |set| drop(set.take()))),
                    ("format!", least(kept, |sets| format!("{:?}", sets.0))),
                    ("shrink_to_fit", least(|| x.clone(), |set| set.shrink_to_fit())),
                ]
            }
        )*
    };
}

sides! {
    ours is bit_set::BitSet, |set, n| set.contains(n), |set, n| set.remove(n);
    peers is peer::BitSet, |set, n| set.contains(n), |set, n| set.remove(n);
    hashed is HashSet<usize>, |set, n| set.contains(&n), |set, n| set.remove(&n);
}

// Calls that `HashSet` lacks.
macro_rules! in_place {
    ($($name:ident is $set:ty;)*) => {
        $(
            fn $name(a: &[usize], b: &[usize]) -> Times {
                let (x, y): ($set, $set) = (a.iter().copied().collect(), b.iter().copied().collect());
                vec![
                    ("union_with", least(|| x.clone(), |set| set.union_with(&y))),
                    ("intersect_with", least(|| x.clone(), |set| set.intersect_with(&y))),
                    ("difference_with", least(|| x.clone(), |set| set.difference_with(&y))),
                    ("symmetric_difference_with", least(|| x.clone(), |set| set.symmetric_difference_with(&y))),
                    ("cmp", least(|| black_box((&x, &y)), |sets| sets.0.cmp(sets.1))),
                    ("with_capacity", least(|| black_box(LIMIT), |limit| <$set>::with_capacity(*limit))),
                    ("reserve_len", least(|| x.clone(), |set| set.reserve_len(2 * LIMIT))),
                    ("from_bytes", least(|| black_box([0x55; 64]), |bytes| <$set>::from_bytes(&bytes[..]))),
                ]
            }
        )*
    };
}

in_place! {
    ours_in_place is bit_set::BitSet;
    peers_in_place is peer::BitSet;
}

fn main() {
    let mut draws = Draws(9);
    let mut drawn = |count: usize, limit: usize| -> Vec<usize> { (0..count).map(|_| draws.below(limit)).collect() };
    let by_ten: Vec<usize> = (0..LIMIT).step_by(10).collect();
    let shapes = vec![
        ("empty", vec![], vec![]),
        ("few", drawn(5, 100), FIVE.to_vec()),
        ("many", drawn(LIMIT / 10, LIMIT), drawn(LIMIT / 10, LIMIT)),
        ("sparse", drawn(1000, LIMIT), drawn(1000, LIMIT)),
        ("one far", vec![1, 2, 3, LIMIT], vec![2, 3, 5, LIMIT]),
        ("dense", (0..LIMIT / 10).collect(), (LIMIT / 20..LIMIT / 5).collect()),
        ("few beside long", drawn(10, 1000), drawn(LIMIT / 10, LIMIT)),
        ("long beside few", drawn(LIMIT / 10, LIMIT), drawn(10, 1000)),
        ("equal", by_ten.clone(), by_ten),
    ];
    println!("| call | shape | beside | ours, ns | theirs, ns | ratio |\n|---|---|---|---|---|---|");
    for (shape, a, b) in &shapes {
        let (own, own_in_place) = (ours(a, b), ours_in_place(a, b));
        let sides = [
            ("bit-set", &own, peers(a, b)),
            ("bit-set", &own_in_place, peers_in_place(a, b)),
            ("HashSet", &own, hashed(a, b)),
        ];
        for (beside, own, theirs) in &sides {
            for (&(call, time), &(_, other)) in own.iter().zip(theirs) {
                if time > 5.0 * other && time > other + 50.0 {
                    println!("| {} | {} | {} | {:.0} | {:.0} | {:.0} |", call, shape, beside, time, other, time / other);
                }
            }
        }
    }
}
