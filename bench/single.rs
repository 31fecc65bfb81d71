//! Rows of the calls on one number.
use crate::calls::*;
use crate::inputs::Density;
use crate::peers::{Set, total};
use crate::table::{Table, Work};
use bit_set::BitSet;
use bit_vec::BitBlock;
use fixedbitset::FixedBitSet;
use std::hint::black_box;

type OnNumbers = unsafe extern "C" fn(len: usize, *const usize, usize, turns: usize) -> usize;
type OnMembers = unsafe extern "C" fn(*const usize, usize, *const usize, usize, turns: usize) -> usize;

/// This library's side, over blocks of one type.
struct Calls {
    blocks: &'static str,
    insert_with_capacity: OnNumbers,
    insert_below: OnNumbers,
    remove: OnMembers,
    contains: OnMembers,
}

const OVER_U32: Calls = Calls {
    blocks: "u32",
    insert_with_capacity: bench_insert_with_capacity_u32,
    insert_below: bench_insert_below_u32,
    remove: bench_remove_u32,
    contains: bench_contains_u32,
};

const OVER_U64: Calls = Calls {
    blocks: "u64",
    insert_with_capacity: bench_insert_with_capacity_u64,
    insert_below: bench_insert_below_u64,
    remove: bench_remove_u64,
    contains: bench_contains_u64,
};

fn insert_all<S: Set>(set: &mut S, numbers: &[usize]) -> usize {
    let mut new = 0;
    for number in numbers {
        new += usize::from(set.insert(*number));
    }
    new
}

fn remove_all<S: Set>(set: &mut S, numbers: &[usize]) -> usize {
    let mut were = 0;
    for number in numbers {
        were += usize::from(set.remove(*number));
    }
    were
}

fn insert_with_capacity<S: Set>(len: usize, numbers: &[usize], turns: usize) -> usize {
    total(turns, |_| insert_all(&mut S::for_numbers_below(len), numbers))
}

fn insert_below<S: Set>(len: usize, numbers: &[usize], turns: usize) -> usize {
    let mut set = S::for_numbers_below(len);
    total(turns, |_| {
        set.clear();
        insert_all(&mut set, numbers)
    })
}

fn remove<S: Set>(full: &S, numbers: &[usize], turns: usize) -> usize {
    total(turns, |_| remove_all(&mut full.clone(), numbers))
}

fn contains<S: Set>(set: &S, numbers: &[usize], turns: usize) -> usize {
    total(turns, |_| numbers.iter().filter(|number| black_box(set).contains(**number)).count())
}

fn rows_over<B: BitBlock>(table: &mut Table, density: &Density, calls: &Calls) {
    let Density { label, len, members, numbers } = density;
    let (len, m, ms) = (*len, members.len(), members.as_ptr());
    let name = |call: &str| format!("{call}, {label}, `{}`", calls.blocks);
    let work = || Work { unit: "call", units: numbers.len(), turns: 4, numbers };
    table.row(&name("`insert` with capacity"), work(), &[
        &|xs, turns| unsafe { (calls.insert_with_capacity)(len, xs.as_ptr(), xs.len(), turns) },
        &|xs, turns| insert_with_capacity::<BitSet<B>>(len, xs, turns),
        &|xs, turns| insert_with_capacity::<FixedBitSet>(len, xs, turns),
    ]);
    table.row(&name("`insert` below the length"), work(), &[
        &|xs, turns| unsafe { (calls.insert_below)(len, xs.as_ptr(), xs.len(), turns) },
        &|xs, turns| insert_below::<BitSet<B>>(len, xs, turns),
        &|xs, turns| insert_below::<FixedBitSet>(len, xs, turns),
    ]);
    table.row(&name("`remove`"), work(), &[
        &|xs, turns| unsafe { (calls.remove)(ms, m, xs.as_ptr(), xs.len(), turns) },
        &|xs, turns| remove(&BitSet::<B>::of(len, members), xs, turns),
        &|xs, turns| remove(&FixedBitSet::of(len, members), xs, turns),
    ]);
    table.row(&name("`contains`"), work(), &[
        &|xs, turns| unsafe { (calls.contains)(ms, m, xs.as_ptr(), xs.len(), turns) },
        &|xs, turns| contains(&BitSet::<B>::of(len, members), xs, turns),
        &|xs, turns| contains(&FixedBitSet::of(len, members), xs, turns),
    ]);
}

pub fn rows(table: &mut Table, density: &Density) {
    rows_over::<u32>(table, density, &OVER_U32);
    rows_over::<u64>(table, density, &OVER_U64);
}
