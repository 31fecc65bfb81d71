//! Rows of the calls that grow, fill or shrink a set or a bit vector, or make a set from bytes.
use crate::calls::*;
use crate::peers::{Set, total};
use crate::table::{Table, Work};
use bit_set::BitSet;
use bit_vec::BitVec;
use fixedbitset::FixedBitSet;
use std::hint::black_box;

const LEN: usize = 1 << 20;

fn work(unit: &'static str, units: usize, turns: usize) -> Work<'static> {
    Work { unit, units, turns, numbers: &[] }
}

fn insert_in_order(turns: usize) -> usize {
    total(turns, |_| {
        let mut set = BitSet::new();
        (0..LEN).filter(|number| set.insert(*number)).count()
    })
}

fn fill(turns: usize) -> usize {
    let mut bits = BitVec::from_elem(LEN, false);
    total(turns, |turn| {
        if turn % 2 == 0 {
            bits.set_all()
        } else {
            bits.clear()
        }
        usize::from(black_box(&bits)[turn])
    })
}

fn fill_fixed(turns: usize) -> usize {
    let mut bits = FixedBitSet::with_capacity(LEN);
    total(turns, |turn| {
        if turn % 2 == 0 {
            bits.set_range(.., true)
        } else {
            bits.clear()
        }
        usize::from(black_box(&bits)[turn])
    })
}

/// The length after each turn has appended this many values.
fn grow(values: u8, turns: usize) -> usize {
    let mut bits = BitVec::new();
    for turn in 0..turns {
        bits.grow(usize::from(values), turn % 2 == 0);
    }
    bits.len()
}

/// The length after each turn has reserved capacity for one more number.
fn reserve_len(turns: usize) -> usize {
    let mut set = BitSet::new();
    for turn in 0..turns {
        set.reserve_len(black_box(turn));
    }
    set.get_ref().len()
}

fn shrink_to_fit(far: usize, turns: usize) -> usize {
    let mut set = BitSet::<u32>::of(1, &[0]);
    total(turns, |_| {
        BitSet::insert(&mut set, far);
        set.drop_number(far);
        set.shrink_to_fit();
        set.get_ref().len()
    })
}

fn rows_of_sets(table: &mut Table) {
    table.row("`insert` of 0, 1, 2, .. from `new`, to 1M", work("call", LEN, 4), &[
        &|_, turns| unsafe { bench_insert_in_order(LEN, turns) },
        &|_, turns| insert_in_order(turns),
    ]);
    let bytes = vec![0b0101_1010; 1 << 20];
    table.row("`from_bytes`", work("byte", bytes.len(), 8), &[
        &|_, turns| unsafe { bench_from_bytes(bytes.as_ptr(), bytes.len(), turns) },
        &|_, turns| total(turns, |turn| usize::from(BitSet::contains(&black_box(BitSet::from_bytes(&bytes)), turn))),
    ]);
    table.row("`reserve_len` of 0, 1, 2, .. from `new`", work("call", 1, 1 << 18), &[
        &|_, turns| unsafe { bench_reserve_len(turns) },
        &|_, turns| reserve_len(turns),
    ]);
    let far = LEN - 1;
    let name = "`insert` of 1M - 1 into {0}, `remove` and `shrink_to_fit`";
    table.row(name, work("block", LEN / 32, 40), &[
        &|_, turns| unsafe { bench_shrink_to_fit(far, turns) },
        &|_, turns| shrink_to_fit(far, turns),
    ]);
}

fn rows_of_bit_vectors(table: &mut Table) {
    table.row("`fill` of 1M values, ones and zeros in turn", work("block", LEN / 32, 200), &[
        &|_, turns| unsafe { bench_fill(LEN, turns) },
        &|_, turns| fill(turns),
        &|_, turns| fill_fixed(turns),
    ]);
    for (name, values) in [("7 values", 7u8), ("a block of 32 values", 32)] {
        table.row(&format!("`grow` by {name}, ones and zeros in turn"), work("call", 1, 1 << 18), &[
            &|_, turns| unsafe { bench_grow(values, turns as u32) },
            &|_, turns| grow(values, turns),
        ]);
    }
}

pub fn rows(table: &mut Table) {
    rows_of_sets(table);
    rows_of_bit_vectors(table);
}
