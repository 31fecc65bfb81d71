//! Times this library over blocks of 32, 64 and 128 bits, and prints a table.
use crate::calls::*;
use crate::inputs::Density;
use crate::peers::Set;
use crate::table::{Table, Work};
use bit_set::BitSet;

/// A pointer to numbers; their count is the next argument.
type Numbers = *const usize;

const WIDTHS: [usize; 3] = [32, 64, 128];

type OnSet = unsafe extern "C" fn(bits: usize, Numbers, usize, turns: usize) -> usize;
type OnPair = unsafe extern "C" fn(bits: usize, Numbers, usize, Numbers, usize, turns: usize) -> usize;

/// A row with a side for each width.
fn row(table: &mut Table, name: &str, work: Work, call: impl Fn(usize, &[usize], usize) -> usize) {
    let call = &call;
    let sides = WIDTHS.map(|bits| move |numbers: &[usize], turns: usize| call(bits, numbers, turns));
    table.row_of_times(name, work, &[&sides[0], &sides[1], &sides[2]]);
}

fn single_calls(table: &mut Table, density: &Density) {
    let Density { label, len, members, numbers } = density;
    let work = || Work { unit: "call", units: numbers.len(), turns: 4, numbers };
    row(table, &format!("`insert` below the length, {label}"), work(), |bits, xs, turns| unsafe {
        bench_insert_below_at_width(bits, *len, xs.as_ptr(), xs.len(), turns)
    });
    let calls: [(&str, OnPair); 2] = [("`remove`", bench_remove_at_width), ("`contains`", bench_contains_at_width)];
    for (name, call) in calls {
        row(table, &format!("{name}, {label}"), work(), |bits, xs, turns| unsafe {
            call(bits, members.as_ptr(), members.len(), xs.as_ptr(), xs.len(), turns)
        });
    }
}

fn whole_sets(table: &mut Table, density: &Density) {
    let Density { label, len, members, numbers } = density;
    let places = |turns| Work { unit: "1,024 places", units: len / 1024, turns, numbers: &[] };
    let items = |units| Work { unit: "item", units, turns: 4, numbers: &[] };
    let one = BitSet::<u32>::of(*len, members);
    let calls: [(&str, Work, OnSet); 4] = [
        ("walk", items(one.len()), bench_walk_at_width),
        ("`count`", places(40), bench_count_at_width),
        ("`clone`", places(40), bench_clone_at_width),
        ("`==` of equal sets", places(40), bench_eq_at_width),
    ];
    for (name, work, call) in calls {
        row(table, &format!("{name}, {label}"), work, |bits, _, turns| unsafe {
            call(bits, members.as_ptr(), members.len(), turns)
        });
    }
    let either = one.union(&BitSet::of(*len, numbers)).count();
    let calls: [(&str, Work, OnPair); 4] = [
        ("walk of the union", items(either), bench_walk_union_at_width),
        ("`count` of the walk of the union", places(40), bench_count_union_at_width),
        ("union in place", places(40), bench_merge_union_at_width),
        ("intersection in place", places(40), bench_merge_intersection_at_width),
    ];
    for (name, work, call) in calls {
        row(table, &format!("{name}, {label}"), work, |bits, _, turns| unsafe {
            call(bits, members.as_ptr(), members.len(), numbers.as_ptr(), numbers.len(), turns)
        });
    }
}

/// Sets that are small, growing or nearly empty.
fn the_rest(table: &mut Table) {
    let small = Density::of("", 128, 1 << 15).numbers;
    let work = Work { unit: "set", units: small.len() / 8, turns: 4, numbers: &[] };
    row(table, "make a set of 8 numbers below 128, and walk over it", work, |bits, _, turns| unsafe {
        bench_small_sets_at_width(bits, small.as_ptr(), small.len(), turns)
    });
    let len = 1 << 20;
    let work = Work { unit: "call", units: len, turns: 4, numbers: &[] };
    row(table, "`insert` of 0, 1, 2, .. from `new`, to 1M", work, |bits, _, turns| unsafe {
        bench_insert_in_order_at_width(bits, len, turns)
    });
    let far = [0, 1 << 26];
    let work = Work { unit: "walk", units: 1, turns: 4, numbers: &[] };
    row(table, "walk of {0, 64M}", work, |bits, _, turns| unsafe {
        bench_walk_at_width(bits, far.as_ptr(), far.len(), turns)
    });
}

/// Prints the table. Returns whether the sides of each row gave the same results.
pub fn race() -> bool {
    let mut table = Table::start(&["Work", "Per", "`u32`", "`u64`", "`u128`"]);
    let dense = Density::of("1M in 1M", 1 << 20, 1 << 20);
    let sparse = Density::of("64k in 1M", 1 << 20, 1 << 16);
    let sparser = Density::of("1k in 16M", 1 << 24, 1 << 10);
    for density in [&dense, &sparse] {
        single_calls(&mut table, density);
    }
    for density in [&dense, &sparse, &sparser] {
        whole_sets(&mut table, density);
    }
    the_rest(&mut table);
    table.end()
}
