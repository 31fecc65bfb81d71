//! Rows of the calls on a whole set. One number is removed after each turn, so that no turn can reuse the result of
//! another.
use crate::calls::*;
use crate::inputs::Density;
use crate::peers::{Set, sum, total};
use crate::table::{Table, Work};
use bit_set::BitSet;
use fixedbitset::FixedBitSet;
use std::hint::black_box;

pub fn walk<S: Set>(mut set: S, turns: usize) -> usize {
    total(turns, |turn| {
        let total = sum(set.walk());
        set.drop_number(turn);
        total
    })
}

pub fn count<S: Set>(mut set: S, turns: usize) -> usize {
    total(turns, |turn| {
        let count = set.count();
        set.drop_number(turn);
        count
    })
}

fn clone<S: Set>(set: S, turns: usize) -> usize {
    total(turns, |turn| usize::from(black_box(set.clone()).contains(turn)))
}

fn eq<S: Set>(mut one: S, turns: usize) -> usize {
    let mut other = one.clone();
    total(turns, |turn| {
        let same = one == other;
        one.drop_number(turn);
        other.drop_number(turn);
        usize::from(same)
    })
}

fn cmp<S: Set>(mut one: S, turns: usize) -> usize {
    let mut other = one.clone();
    total(turns, |turn| {
        let same = one.cmp(&other).is_eq();
        one.drop_number(turn);
        other.drop_number(turn);
        usize::from(same)
    })
}

pub fn rows(table: &mut Table, density: &Density) {
    let Density { label, len, members, .. } = density;
    let (m, ms) = (members.len(), members.as_ptr());
    let set = || BitSet::<u32>::of(*len, members);
    let fixed = || FixedBitSet::of(*len, members);
    let items = set().len();
    let blocks = len.div_ceil(32);
    let work = |unit, units, turns| Work { unit, units, turns, numbers: &[] };
    table.row(&format!("walk, {label}"), work("item", items, 4), &[
        &|_, turns| unsafe { bench_walk(ms, m, turns) },
        &|_, turns| walk(set(), turns),
        &|_, turns| walk(fixed(), turns),
    ]);
    table.row(&format!("`count`, {label}"), work("block", blocks, 40), &[
        &|_, turns| unsafe { bench_count(ms, m, turns) },
        &|_, turns| count(set(), turns),
        &|_, turns| count(fixed(), turns),
    ]);
    table.row(&format!("`clone`, {label}"), work("block", blocks, 40), &[
        &|_, turns| unsafe { bench_clone(ms, m, turns) },
        &|_, turns| clone(set(), turns),
        &|_, turns| clone(fixed(), turns),
    ]);
    table.row(&format!("`==` of equal sets, {label}"), work("block", blocks, 40), &[
        &|_, turns| unsafe { bench_eq(ms, m, turns) },
        &|_, turns| eq(set(), turns),
        &|_, turns| eq(fixed(), turns),
    ]);
    // The order of `fixedbitset` is different.
    table.row(&format!("`cmp` of equal sets, {label}"), work("block", blocks, 40), &[
        &|_, turns| unsafe { bench_cmp(ms, m, turns) },
        &|_, turns| cmp(set(), turns),
    ]);
}
