//! Rows of the calls on a set whose two numbers are far apart.
use crate::calls::*;
use crate::peers::{Set, total};
use crate::table::{Table, Work};
use crate::whole::{count, walk};
use bit_set::BitSet;
use bit_vec::BitBlock;
use fixedbitset::FixedBitSet;
use std::hint::black_box;

type OnWhole = unsafe extern "C" fn(*const usize, usize, turns: usize) -> usize;
type OnFar = unsafe extern "C" fn(number: usize, shrinks: usize, turns: usize) -> usize;

/// This library's side, over blocks of one type.
struct Calls {
    blocks: &'static str,
    walk: OnWhole,
    count: OnWhole,
    is_empty: OnWhole,
    shrink_emptied: OnFar,
}

const OVER_U32: Calls = Calls {
    blocks: "u32",
    walk: bench_walk,
    count: bench_count,
    is_empty: bench_is_empty_u32,
    shrink_emptied: bench_shrink_emptied_u32,
};

const OVER_U64: Calls = Calls {
    blocks: "u64",
    walk: bench_walk_u64,
    count: bench_count_u64,
    is_empty: bench_is_empty_u64,
    shrink_emptied: bench_shrink_emptied_u64,
};

const FAR: [usize; 2] = [0, 1 << 26];
const LEN: usize = FAR[1] + 1;

/// The set of both numbers, once they are removed.
fn emptied<B: BitBlock>() -> BitSet<B> {
    let mut set = BitSet::of(LEN, &FAR);
    for number in FAR {
        set.drop_number(number);
    }
    set
}

fn is_empty<B: BitBlock>(mut set: BitSet<B>, turns: usize) -> usize {
    total(turns, |turn| {
        let none = set.is_empty();
        set.drop_number(turn);
        usize::from(none)
    })
}

/// Makes an empty set with capacity for 64M numbers; if it is to shrink, it then gives the capacity back.
fn shrink_emptied<B: BitBlock>(shrinks: bool, turns: usize) -> usize {
    total(turns, |_| {
        let mut set = black_box(emptied::<B>());
        if shrinks {
            set.shrink_to_fit();
        }
        usize::from(!BitSet::contains(&set, FAR[1]))
    })
}

fn rows_over<B: BitBlock>(table: &mut Table, calls: &Calls) {
    let name = |call: &str| format!("{call}, `{}`", calls.blocks);
    let work = || Work { unit: "call", units: 1, turns: 10, numbers: &[] };
    table.row(&name("walk of {0, 64M}"), work(), &[
        &|_, turns| unsafe { (calls.walk)(FAR.as_ptr(), FAR.len(), turns) },
        &|_, turns| walk(BitSet::<B>::of(LEN, &FAR), turns),
        &|_, turns| walk(FixedBitSet::of(LEN, &FAR), turns),
    ]);
    table.row(&name("`count` of {0, 64M}"), work(), &[
        &|_, turns| unsafe { (calls.count)(FAR.as_ptr(), FAR.len(), turns) },
        &|_, turns| count(BitSet::<B>::of(LEN, &FAR), turns),
        &|_, turns| count(FixedBitSet::of(LEN, &FAR), turns),
    ]);
    table.row(&name("`is_empty` of {0, 64M} once both are removed"), work(), &[
        &|_, turns| unsafe { (calls.is_empty)(FAR.as_ptr(), FAR.len(), turns) },
        &|_, turns| is_empty(emptied::<B>(), turns),
    ]);
    // The time of the turns that give no capacity back is subtracted.
    let shrinking = Work { unit: "call", units: 1, turns: 10, numbers: &[1] };
    table.row(&name("`shrink_to_fit` of {0, 64M} once both are removed"), shrinking, &[
        &|xs, turns| unsafe { (calls.shrink_emptied)(FAR[1], xs.len(), turns) },
        &|xs, turns| shrink_emptied::<B>(!xs.is_empty(), turns),
    ]);
}

pub fn rows(table: &mut Table) {
    rows_over::<u32>(table, &OVER_U32);
    rows_over::<u64>(table, &OVER_U64);
}
