//! Rows of calls on a part of a set, on its absent numbers and on its bytes, and of sets made from numbers. One number
//! is removed after each turn, so that no turn can reuse the result of another. For a call that a peer lacks, its side
//! is what its user would write.
use crate::calls::*;
use crate::inputs::Density;
use crate::peers::{Set, sum, total};
use crate::table::{Table, Work};
use bit_set::BitSet;
use fixedbitset::FixedBitSet;
use std::hint::black_box;
use std::ops::Range;

fn walk_range<S: Set>(mut set: S, part: &Range<usize>, turns: usize) -> usize {
    total(turns, |turn| {
        let walk = set.walk().skip_while(|number| *number < part.start).take_while(|number| *number < part.end);
        let found = sum(walk);
        set.drop_number(turn);
        found
    })
}

fn walk_missing<S: Set>(mut set: S, part: &Range<usize>, turns: usize) -> usize {
    total(turns, |turn| {
        let found = sum(part.clone().filter(|number| !set.contains(*number)));
        set.drop_number(turn);
        found
    })
}

/// First finds the numbers to remove, and then removes them.
fn retain<S: Set>(mut set: S, turns: usize) -> usize {
    for turn in 0..turns {
        let gone: Vec<usize> = set.walk().filter(|number| *number == turn).collect();
        gone.iter().for_each(|number| set.drop_number(*number));
    }
    set.count()
}

fn rows_of_parts(table: &mut Table, density: &Density) {
    let Density { label, len, members, .. } = density;
    let (m, ms) = (members.len(), members.as_ptr());
    let set = || BitSet::<u64>::of(*len, members);
    let fixed = || FixedBitSet::of(*len, members);
    let part = len / 2..len / 2 + len / 4;
    let within = set().iter().filter(|number| part.contains(number)).count();
    let work = |unit, units| Work { unit, units, turns: 4, numbers: &[] };
    table.row(&format!("walk of a quarter by `range`, {label}"), work("item", within), &[
        &|_, turns| unsafe { bench_range_of(ms, m, part.start, part.end, turns) },
        &|_, turns| walk_range(set(), &part, turns),
        &|_, turns| walk_range(fixed(), &part, turns),
    ]);
    table.row(&format!("walk of a quarter by `missing`, {label}"), work("item", part.len() - within), &[
        &|_, turns| unsafe { bench_missing(ms, m, part.start, part.end, turns) },
        &|_, turns| walk_missing(set(), &part, turns),
        &|_, turns| walk_missing(fixed(), &part, turns),
    ]);
    table.row(&format!("`retain` of all but one, {label}"), work("item", set().len()), &[
        &|_, turns| unsafe { bench_retain(ms, m, turns) },
        &|_, turns| retain(set(), turns),
        &|_, turns| retain(fixed(), turns),
    ]);
}

fn to_bytes(mut set: BitSet<u64>, turns: usize) -> usize {
    total(turns, |turn| {
        let bytes = set.get_ref().to_bytes();
        set.remove(turn);
        usize::from(bytes.get(turn).copied().unwrap_or(0))
    })
}

fn rows_of_all(table: &mut Table, density: &Density) {
    let Density { label, len, members, .. } = density;
    let (m, ms) = (members.len(), members.as_ptr());
    let mut ascending = members.clone();
    ascending.sort_unstable();
    ascending.dedup();
    let (n, ns) = (ascending.len(), ascending.as_ptr());
    let work = |unit, units| Work { unit, units, turns: 4, numbers: &[] };
    table.row(&format!("`to_bytes`, {label}"), work("byte", len / 8), &[
        &|_, turns| unsafe { bench_to_bytes(ms, m, turns) },
        &|_, turns| to_bytes(BitSet::of(*len, members), turns),
    ]);
    table.row(&format!("`from_iter` of ascending numbers, {label}"), work("item", n), &[
        &|_, turns| unsafe { bench_from_iter(ns, n, turns) },
        &|_, turns| made_of::<BitSet<u64>>(&ascending, turns),
        &|_, turns| made_of::<FixedBitSet>(&ascending, turns),
    ]);
}

fn made_of<S: Set + FromIterator<usize>>(numbers: &[usize], turns: usize) -> usize {
    total(turns, |turn| usize::from(has(&numbers.iter().copied().collect::<S>(), turn)))
}

/// Whether the number is present, in a set that the compiler may not optimize away.
fn has<S: Set>(set: &S, number: usize) -> bool {
    black_box(set).contains(number)
}

/// A set of few numbers with capacity for all below a great one.
fn row_of_capacity(table: &mut Table) {
    let Density { label, len, members, .. } = &Density::of("1k in 1G", 1 << 30, 1_000);
    let (m, ms) = (members.len(), members.as_ptr());
    let work = Work { unit: "call", units: 1, turns: 1, numbers: &[] };
    table.row(&format!("`with_capacity` and an `insert` each, {label}"), work, &[
        &|_, turns| unsafe { bench_with_capacity(*len, ms, m, turns) },
        &|_, turns| with_capacity(|| BitSet::with_capacity(*len), members, turns),
        &|_, turns| with_capacity(|| FixedBitSet::with_capacity(*len), members, turns),
    ]);
}

fn with_capacity<S: Set>(make: impl Fn() -> S, numbers: &[usize], turns: usize) -> usize {
    total(turns, |turn| {
        let mut set = make();
        numbers.iter().for_each(|number| {
            set.insert(*number);
        });
        usize::from(has(&set, turn))
    })
}

pub fn rows(table: &mut Table, densities: &[&Density]) {
    for density in densities {
        rows_of_parts(table, density);
    }
    for density in densities {
        rows_of_all(table, density);
    }
    row_of_capacity(table);
}
