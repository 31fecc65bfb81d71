//! Rows of the calls on two sets. One number is removed after each turn, so that no turn can reuse the result of
//! another.
use crate::calls::*;
use crate::inputs::Density;
use crate::peers::{Set, sum, total};
use crate::table::{Table, Work};
use bit_set::BitSet;
use fixedbitset::FixedBitSet;

/// A pointer to numbers; their count is the next argument.
type Numbers = *const usize;

type OnPair = unsafe extern "C" fn(Numbers, usize, Numbers, usize, turns: usize) -> usize;

/// One of this library's calls on two sets.
struct Here {
    name: &'static str,
    walk: OnPair,
    count: OnPair,
    merge: OnPair,
    change: OnPair,
}

/// The same call of a peer.
struct Peer<S> {
    sum_of: fn(&S, &S) -> usize,
    count_of: fn(&S, &S) -> usize,
    merge_into: fn(&mut S, &S),
    change: fn(&mut S, &S) -> bool,
}

impl<S: Set> Peer<S> {
    fn walk(&self, (mut one, other): (S, S), turns: usize) -> usize {
        total(turns, |turn| {
            let sum = (self.sum_of)(&one, &other);
            one.drop_number(turn);
            sum
        })
    }

    fn count(&self, (mut one, other): (S, S), turns: usize) -> usize {
        total(turns, |turn| {
            let count = (self.count_of)(&one, &other);
            one.drop_number(turn);
            count
        })
    }

    fn merge(&self, (mut one, other): (S, S), turns: usize) -> usize {
        total(turns, |turn| {
            (self.merge_into)(&mut one, &other);
            usize::from(one.remove(turn))
        })
    }

    fn change(&self, (mut one, other): (S, S), turns: usize) -> usize {
        total(turns, |turn| {
            let changes = (self.change)(&mut one, &other);
            usize::from(one.remove(turn)) + usize::from(changes)
        })
    }
}

/// The calls of one name, of any peer.
macro_rules! peer {
    ($call:ident, $call_with:ident, $changes:ident) => {
        Peer {
            sum_of: |one, other| sum(one.$call(other)),
            count_of: |one, other| one.$call(other).count(),
            merge_into: |one, other| one.$call_with(other),
            change: |one, other| one.$changes(other),
        }
    };
}

const UNION: Here = Here {
    name: "union",
    walk: bench_walk_union,
    count: bench_count_union,
    merge: bench_merge_union,
    change: bench_change_union,
};
const INTERSECTION: Here = Here {
    name: "intersection",
    walk: bench_walk_intersection,
    count: bench_count_intersection,
    merge: bench_merge_intersection,
    change: bench_change_intersection,
};
const DIFFERENCE: Here = Here {
    name: "difference",
    walk: bench_walk_difference,
    count: bench_count_difference,
    merge: bench_merge_difference,
    change: bench_change_difference,
};
const SYMMETRIC_DIFFERENCE: Here = Here {
    name: "symmetric difference",
    walk: bench_walk_symmetric_difference,
    count: bench_count_symmetric_difference,
    merge: bench_merge_symmetric_difference,
    change: bench_change_symmetric_difference,
};

fn rows_of(table: &mut Table, density: &Density, calls: Here, peer: Peer<BitSet>, other_peer: Peer<FixedBitSet>) {
    let Density { label, len, members, numbers } = density;
    let name = calls.name;
    let blocks = len.div_ceil(32);
    let work = |unit, units| Work { unit, units, turns: 4, numbers: &[] };
    let here =
        |call: OnPair, turns| unsafe { call(members.as_ptr(), members.len(), numbers.as_ptr(), numbers.len(), turns) };
    let sets = || (BitSet::of(*len, members), BitSet::of(*len, numbers));
    let fixed_sets = || (FixedBitSet::of(*len, members), FixedBitSet::of(*len, numbers));
    let (one, other) = sets();
    let items = (peer.count_of)(&one, &other);
    table.row(&format!("walk of the {name}, {label}"), work("item", items), &[
        &|_, turns| here(calls.walk, turns),
        &|_, turns| peer.walk(sets(), turns),
        &|_, turns| other_peer.walk(fixed_sets(), turns),
    ]);
    table.row(&format!("`count` of the walk of the {name}, {label}"), work("block", blocks), &[
        &|_, turns| here(calls.count, turns),
        &|_, turns| peer.count(sets(), turns),
        &|_, turns| other_peer.count(fixed_sets(), turns),
    ]);
    table.row(&format!("{name} in place, {label}"), work("block", blocks), &[
        &|_, turns| here(calls.merge, turns),
        &|_, turns| peer.merge(sets(), turns),
        &|_, turns| other_peer.merge(fixed_sets(), turns),
    ]);
    table.row(&format!("{name} in place that tells of a change, {label}"), work("block", blocks), &[
        &|_, turns| here(calls.change, turns),
        &|_, turns| peer.change(sets(), turns),
        &|_, turns| other_peer.change(fixed_sets(), turns),
    ]);
}

pub fn rows(table: &mut Table, density: &Density) {
    rows_of(table, density, UNION, peer!(union, union_with, union_changes), peer!(union, union_with, union_changes));
    rows_of(table, density, INTERSECTION, peer!(intersection, intersect_with, intersection_changes), peer!(intersection, intersect_with, intersection_changes));
    rows_of(table, density, DIFFERENCE, peer!(difference, difference_with, difference_changes), peer!(difference, difference_with, difference_changes));
    rows_of(
        table,
        density,
        SYMMETRIC_DIFFERENCE,
        peer!(symmetric_difference, symmetric_difference_with, symmetric_difference_changes),
        peer!(symmetric_difference, symmetric_difference_with, symmetric_difference_changes),
    );
    row_of_union_with_difference(table, density);
}

fn grown(numbers: &[usize]) -> BitSet {
    numbers.iter().copied().collect()
}

/// Moves a copy of the second set into the first, by draining it.
fn append(first: &[usize], second: &[usize], turns: usize) -> usize {
    let (mut one, second) = (grown(first), grown(second));
    let mut other = BitSet::default();
    total(turns, |turn| {
        other.clone_from(&second);
        one.extend(other.iter());
        other.clear();
        usize::from(BitSet::remove(&mut one, turn))
    })
}

/// Splits the set in the middle, and joins the parts again.
fn part_and_join(members: &[usize], turns: usize) -> usize {
    let mut set = grown(members);
    let middle = set.get_ref().len() / 2;
    total(turns, |turn| {
        let part: BitSet = set.iter().filter(|number| *number >= middle).collect();
        let mut bits = std::mem::take(&mut set).into_bit_vec();
        bits.truncate(middle);
        set = BitSet::from_bit_vec(bits);
        let found = BitSet::contains(&part, middle + turn);
        set.extend(part.iter());
        usize::from(found)
    })
}

/// Elements that move from one set to another. No peer has such a call.
pub fn rows_of_moves(table: &mut Table, density: &Density) {
    let Density { label, len, members, numbers } = density;
    let (m, ms) = (members.len(), members.as_ptr());
    let work = || Work { unit: "block", units: len.div_ceil(32), turns: 4, numbers: &[] };
    table.row(&format!("`append` of a copy, {label}"), work(), &[
        &|_, turns| unsafe { bench_append(ms, m, numbers.as_ptr(), numbers.len(), turns) },
        &|_, turns| append(members, numbers, turns),
    ]);
    table.row(&format!("`split_off` in the middle, and `append` of the part, {label}"), work(), &[
        &|_, turns| unsafe { bench_split_off(ms, m, turns) },
        &|_, turns| part_and_join(members, turns),
    ]);
}

fn unite_difference<S: Set>((mut one, other): (S, S), turns: usize) -> usize {
    let mut except = one.clone();
    except.difference_with(&other);
    let mut copy = other.clone();
    total(turns, |turn| {
        copy.clone_from(&other);
        copy.difference_with(&except);
        let changes = one.union_changes(&copy);
        usize::from(one.remove(turn)) + usize::from(changes)
    })
}

/// The union with a difference, which the peers make from a copy.
fn row_of_union_with_difference(table: &mut Table, density: &Density) {
    let Density { label, len, members, numbers } = density;
    let work = Work { unit: "block", units: len.div_ceil(32), turns: 4, numbers: &[] };
    table.row(&format!("`union_with_difference`, {label}"), work, &[
        &|_, turns| unsafe {
            bench_change_by_difference(members.as_ptr(), members.len(), numbers.as_ptr(), numbers.len(), turns)
        },
        &|_, turns| unite_difference((BitSet::<u32>::of(*len, members), BitSet::of(*len, numbers)), turns),
        &|_, turns| unite_difference((FixedBitSet::of(*len, members), FixedBitSet::of(*len, numbers)), turns),
    ]);
}

fn is_disjoint<S: Set>((mut one, other): (S, S), turns: usize) -> usize {
    one.difference_with(&other);
    total(turns, |turn| {
        let apart = one.is_disjoint(&other);
        one.drop_number(turn);
        usize::from(apart)
    })
}

fn is_subset<S: Set>((mut other, mut one): (S, S), turns: usize) -> usize {
    other.union_with(&one);
    total(turns, |turn| {
        let within = one.is_subset(&other);
        one.drop_number(turn);
        usize::from(within)
    })
}

/// Tests whose result is true, and which therefore read every block.
pub fn rows_of_tests(table: &mut Table, density: &Density) {
    let Density { label, len, members, numbers } = density;
    let work = || Work { unit: "block", units: len.div_ceil(32), turns: 40, numbers: &[] };
    let here =
        |call: OnPair, turns| unsafe { call(members.as_ptr(), members.len(), numbers.as_ptr(), numbers.len(), turns) };
    let sets = || (BitSet::<u32>::of(*len, members), BitSet::of(*len, numbers));
    let fixed_sets = || (FixedBitSet::of(*len, members), FixedBitSet::of(*len, numbers));
    table.row(&format!("`is_disjoint`, {label}"), work(), &[
        &|_, turns| here(bench_is_disjoint, turns),
        &|_, turns| is_disjoint(sets(), turns),
        &|_, turns| is_disjoint(fixed_sets(), turns),
    ]);
    table.row(&format!("`is_subset`, {label}"), work(), &[
        &|_, turns| here(bench_is_subset, turns),
        &|_, turns| is_subset(sets(), turns),
        &|_, turns| is_subset(fixed_sets(), turns),
    ]);
}
