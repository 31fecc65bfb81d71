//! The sides of `roaring`: this library's Roaring bitmaps, both builds of CRoaring, this library's sets of bits, `BTreeSet`.
use crate::Input;
use crate::croaring::{Calls, Merge, Set};
use crate::memory;
use crate::peers::{sum, total};
use std::collections::BTreeSet;
use std::hint::black_box;
use std::sync::OnceLock;

/// The work of each turn, and the unit of its time, in the order of `crates/roaring_calls/src/timing.rt`.
pub const CALLS: [(&str, &str); 9] = [
    ("`contains`", "number"),
    ("`insert` into an empty set", "item"),
    ("walk", "item"),
    ("`next_many` of 256", "item"),
    ("union in place", "call"),
    ("intersection in place", "call"),
    ("`intersection_len`", "call"),
    ("`serialize`", "call"),
    ("`deserialize`", "call"),
];

/// The work behind these, which makes a set and then another of one number.
const HOLD: usize = CALLS.len();

unsafe extern "C" {
    fn bench_roaring(
        work: usize,
        first: *const u32,
        m: usize,
        second: *const u32,
        n: usize,
        numbers: *const u32,
        k: usize,
        turns: usize,
    ) -> usize;
}

pub type BoxedSide<'a> = Box<dyn Fn(&[usize], usize) -> usize + 'a>;

/// CRoaring as Debian builds it, and as it is built here if its sources are available.
static BUILDS: [OnceLock<Calls>; 2] = [OnceLock::new(), OnceLock::new()];

/// Opens both. Returns whether the first one is there.
pub fn open_both() -> bool {
    for (build, name) in BUILDS.iter().zip(["CROARING", "CROARING_BUILT"]) {
        if let Some(calls) = std::env::var(name).ok().and_then(|path| Calls::open(&path)) {
            let _first = build.set(calls);
        }
    }
    BUILDS[0].get().is_some()
}

fn run_here(work: usize, input: &Input, turns: usize) -> usize {
    let [first, second] = &input.sets;
    let numbers = if CALLS[work].1 == "item" { first } else { &input.numbers };
    let (m, n, k) = (first.len(), second.len(), numbers.len());
    unsafe { bench_roaring(work, first.as_ptr(), m, second.as_ptr(), n, numbers.as_ptr(), k, turns) }
}

fn croaring_of(calls: &'static Calls, numbers: &[u32]) -> Set<'static> {
    let mut set = Set::new(calls);
    for number in numbers {
        set.insert(*number);
    }
    set.optimize();
    set
}

fn run_croaring(calls: &'static Calls, work: usize, input: &Input, turns: usize) -> usize {
    let [one, other] = input.sets.each_ref().map(|numbers| croaring_of(calls, numbers));
    let mut ones = [one.clone(), one];
    match work {
        0 => total(turns, |turn| input.numbers.iter().filter(|number| ones[turn % 2].contains(**number)).count()),
        1 => total(turns, |_| croaring_of(calls, &input.sets[0]).len() as usize),
        2 => total(turns, |turn| ones[turn % 2].sum_one_by_one()),
        3 => total(turns, |turn| ones[turn % 2].sum()),
        4 | 5 => {
            let merge = if work == 4 { Merge::Union } else { Merge::Intersection };
            (0..turns).for_each(|turn| ones[turn % 2].merge(merge, &other));
            ones[0].len() as usize
        }
        6 => total(turns, |turn| ones[turn % 2].merged_len(Merge::Intersection, &other) as usize),
        7 => total(turns, |turn| ones[turn % 2].bytes().len()),
        _ => {
            let bytes = ones[0].bytes();
            total(turns, |_| Set::of_bytes(calls, &bytes).map_or(0, |(set, _)| set.len() as usize))
        }
    }
}

fn run_tree(work: usize, input: &Input, turns: usize) -> usize {
    let tree = |numbers: &Vec<u32>| {
        let mut set = BTreeSet::new();
        numbers.iter().for_each(|number| {
            set.insert(*number);
        });
        set
    };
    let [one, other] = input.sets.each_ref().map(tree);
    let mut ones = [one.clone(), one];
    match work {
        0 => total(turns, |turn| input.numbers.iter().filter(|number| ones[turn % 2].contains(*number)).count()),
        1 => total(turns, |_| tree(&input.sets[0]).len()),
        2 | 3 => total(turns, |turn| sum(ones[turn % 2].iter().map(|number| *number as usize))),
        4 => {
            (0..turns).for_each(|turn| ones[turn % 2].extend(&other));
            ones[0].len()
        }
        5 => {
            (0..turns).for_each(|turn| ones[turn % 2].retain(|number| other.contains(number)));
            ones[0].len()
        }
        _ => total(turns, |turn| ones[turn % 2].intersection(&other).count()),
    }
}

/// The sides of a row. A side that lacks the call is left out.
pub fn sides_of<'a>(work: usize, input: &'a Input) -> [Option<BoxedSide<'a>>; 5] {
    let build = |place: usize| -> Option<BoxedSide<'a>> {
        let calls = BUILDS[place].get()?;
        Some(Box::new(move |_, turns| run_croaring(calls, work, input, turns)))
    };
    let bits = bits::side_of(work, input);
    let tree: Option<BoxedSide<'a>> = if work < 7 { Some(Box::new(move |_, turns| run_tree(work, input, turns))) } else { None };
    [Some(Box::new(move |_, turns| run_here(work, input, turns))), build(0), build(1), bits, tree]
}

/// How many bytes each side's set holds.
pub fn bytes_held(input: &Input) -> [Option<usize>; 5] {
    let numbers = &input.sets[0];
    // The last request of the work is by a set of one number, beside the set of these.
    let with = |numbers: &[u32]| {
        let (k, ks) = (numbers.len(), numbers.as_ptr());
        memory::last_held(|| unsafe { bench_roaring(HOLD, ks, 0, ks, 0, ks, k, 1) })
    };
    let here = with(numbers) - with(&[]);
    let build = |place: usize| BUILDS[place].get().map(|calls| memory::held_by(|| croaring_of(calls, numbers)));
    let tree = memory::held_by(|| numbers.iter().copied().collect::<BTreeSet<u32>>());
    [Some(here), build(0), build(1), bits::bytes_held(input), Some(tree)]
}

/// This library's sets of bits.
mod bits {
    use super::{BoxedSide, Input, black_box, memory};
    use crate::calls::*;

    type Numbers = *const usize;

    fn wide(numbers: &[u32]) -> Vec<usize> {
        numbers.iter().map(|number| *number as usize).collect()
    }

    /// The number of the work in `crates/bench_calls/src/sparse.rt`, if it is there.
    fn sparse_work(work: usize) -> Option<usize> {
        [None, None, Some(9), Some(9), Some(0), Some(1), Some(4)].get(work).copied().flatten()
    }

    pub fn side_of<'a>(work: usize, input: &'a Input) -> Option<BoxedSide<'a>> {
        let [first, second] = input.sets.each_ref().map(|numbers| wide(numbers));
        let numbers = wide(&input.numbers);
        let (m, n, k) = (first.len(), second.len(), numbers.len());
        match work {
            0 => Some(Box::new(move |_, turns| unsafe {
                bench_contains_u64(first.as_ptr(), m, numbers.as_ptr(), k, turns)
            })),
            1 => Some(Box::new(move |_, turns| unsafe { bench_insert_with_capacity_u64(0, first.as_ptr(), m, turns) })),
            _ => {
                let work = sparse_work(work)?;
                Some(Box::new(move |_, turns| unsafe {
                    bench_sparse(work, 0, first.as_ptr(), m, second.as_ptr(), n, turns)
                }))
            }
        }
    }

    pub fn bytes_held(input: &Input) -> Option<usize> {
        let numbers = wide(&input.sets[0]);
        let held = memory::most_held(|| {
            black_box(unsafe { bench_insert_with_capacity_u64(0, numbers.as_ptr(), numbers.len(), 1) })
        });
        Some(held)
    }
}
