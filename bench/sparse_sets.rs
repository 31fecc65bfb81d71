//! Rows of sets of few numbers in a wide range, of runs, and of half of all numbers, beside sets that take memory by
//! their members. Turns alternate between two equal sets, so that none can reuse the result of another.
use crate::calls::*;
use crate::croaring::Merge;
use crate::inputs::{Random, overlapping};
use crate::live_variables;
use crate::peers::total;
use crate::sparse_peers::{Peer, Roaring, SparseBits, open_croaring};
use crate::table::{Side, Table, Work};
use fixedbitset::FixedBitSet;
use std::collections::BTreeSet;

/// The work of each turn, in the order of `crates/bench_calls/src/sparse.rt`.
#[derive(Clone, Copy)]
enum Call {
    Merge(Merge),
    Count(Merge),
    Compare,
    UniteAndClear,
    Walk,
}

const CALLS: [(&str, Call); 10] = [
    ("union in place", Call::Merge(Merge::Union)),
    ("intersection in place", Call::Merge(Merge::Intersection)),
    ("difference in place", Call::Merge(Merge::Difference)),
    ("count of the union", Call::Count(Merge::Union)),
    ("count of the intersection", Call::Count(Merge::Intersection)),
    ("count of the difference", Call::Count(Merge::Difference)),
    ("count of the symmetric difference", Call::Count(Merge::Symmetric)),
    ("`==` of equal sets", Call::Compare),
    ("union into an empty set and clear", Call::UniteAndClear),
    ("walk", Call::Walk),
];

/// Ascending numbers below `len`, of two sets.
struct Input {
    label: &'static str,
    len: usize,
    sets: [Vec<usize>; 2],
}

/// Half of all numbers below `len`, at random.
fn halves(len: usize) -> [Vec<usize>; 2] {
    let mut random = Random::start();
    [0, 1].map(|_| (0..len).filter(|_| random.below(2) == 0).collect())
}

fn inputs() -> [Input; 7] {
    let of = |label, len, count, run| Input { label, len, sets: overlapping(len, count, run) };
    [
        of("1k in 1M", 1 << 20, 1_000, 1),
        of("256 in 16M", 1 << 24, 256, 1),
        of("16k in 16M", 1 << 24, 1 << 14, 1),
        of("1k in 64M", 1 << 26, 1_000, 1),
        of("1k runs of 1k in 64M", 1 << 26, 1_000, 1_000),
        of("20 in 100k", 100_000, 20, 1),
        Input { label: "half of 1M", len: 1 << 20, sets: halves(1 << 20) },
    ]
}

fn run<S: Peer>(call: Call, input: &Input, turns: usize) -> usize {
    let [one, other] = input.sets.each_ref().map(|numbers| S::of(input.len, numbers));
    let mut ones = [one.clone(), one];
    match call {
        Call::Merge(merge) => {
            (0..turns).for_each(|turn| ones[turn % 2].merge(merge, &other));
            ones[0].count()
        }
        Call::Count(merge) => total(turns, |turn| ones[turn % 2].count_merged(merge, &other)),
        Call::Compare => total(turns, |turn| usize::from(ones[turn % 2] == ones[1 - turn % 2])),
        Call::UniteAndClear => {
            ones.iter_mut().for_each(S::clear);
            for turn in 0..turns {
                ones[turn % 2].merge(Merge::Union, &other);
                ones[turn % 2].clear();
            }
            ones[0].count()
        }
        Call::Walk => total(turns, |turn| ones[turn % 2].sum()),
    }
}

fn run_here(work: usize, input: &Input, turns: usize) -> usize {
    let [first, second] = &input.sets;
    let (m, n) = (first.len(), second.len());
    unsafe { bench_sparse(work, input.len, first.as_ptr(), m, second.as_ptr(), n, turns) }
}

/// Prints the table. Returns whether the sides of each row gave the same results.
pub fn race() -> bool {
    let mut columns = vec!["Sets", "Per", "here (`u64`)"];
    let has_croaring = open_croaring();
    for peer in ["CRoaring", "`SparseBitVector`", "`fixedbitset`", "`BTreeSet`"] {
        columns.extend([peer, "ratio"]);
    }
    let mut table = Table::start(&columns);
    for input in &inputs() {
        for (work, (name, call)) in CALLS.iter().enumerate() {
            let here: Side = &|_, turns| run_here(work, input, turns);
            let croaring: Side = &|_, turns| run::<Roaring>(*call, input, turns);
            let sides = [
                Some(here),
                has_croaring.then_some(croaring),
                Some(&|_, turns| run::<SparseBits>(*call, input, turns)),
                Some(&|_, turns| run::<FixedBitSet>(*call, input, turns)),
                Some(&|_, turns| run::<BTreeSet<usize>>(*call, input, turns)),
            ];
            let work = Work { unit: "call", units: 1, turns: 4, numbers: &[] };
            table.row_beside(&format!("{name}, {}", input.label), work, &sides);
        }
    }
    live_variables::row_of_few(&mut table);
    table.end()
}
