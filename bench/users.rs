//! Times libraries that use this repository's sets beside the same loops over the sets of the Rust crates `bit-set`
//! and `fixedbitset`, and prints a table.
use crate::automata;
use crate::inputs::Density;
use crate::live_variables;
use crate::peers::{Set, total};
use crate::table::{Table, Work};
use crate::user_calls::*;
use bit_set::BitSet;
use bit_vec::BitBlock;
use fixedbitset::FixedBitSet;

type OnSlots = unsafe extern "C" fn(len: usize, taken: usize, *const usize, usize, turns: usize) -> usize;
type OnGraph = unsafe extern "C" fn(nodes: usize, each: usize, *const usize, usize, turns: usize) -> usize;

/// Adds up the lowest free slots that are taken after each of these slots is given back.
fn slots<S: Set>(len: usize, taken: usize, given: &[usize], turns: usize) -> usize {
    let mut free = S::for_numbers_below(len);
    for slot in taken..len {
        free.insert(slot);
    }
    total(turns, |_| {
        let mut sum = 0usize;
        for slot in given {
            free.insert(*slot);
            let lowest = free.walk().next();
            if let Some(lowest) = lowest {
                free.drop_number(lowest);
                sum = sum.wrapping_add(lowest);
            }
        }
        sum
    })
}

fn slots_row<B: BitBlock>(table: &mut Table, blocks: &str, here: OnSlots, len: usize, taken: usize) {
    let given = Density::of("", taken, 1 << 14).members;
    let name = format!("`give_back` and `take`, {taken} of {len} slots taken, `{blocks}`");
    let work = Work { unit: "pair", units: given.len(), turns: 16, numbers: &given };
    table.row(&name, work, &[
        &|xs, turns| unsafe { here(len, taken, xs.as_ptr(), xs.len(), turns) },
        &|xs, turns| slots::<BitSet<B>>(len, taken, xs, turns),
        &|xs, turns| slots::<FixedBitSet>(len, taken, xs, turns),
    ]);
}

/// Adds up how many nodes are reached from the first one, where each node has this many of the edges.
fn reachable<S: Set>(each: usize, ends: &[usize], turns: usize) -> usize {
    let rows: Vec<Vec<usize>> = ends.chunks(each).map(<[usize]>::to_vec).collect();
    total(turns, |_| {
        let mut reached = S::for_numbers_below(rows.len());
        reached.insert(0);
        let mut stack = vec![0];
        while let Some(node) = stack.pop() {
            if let Some(row) = rows.get(node) {
                for end in row {
                    if reached.insert(*end) {
                        stack.push(*end);
                    }
                }
            }
        }
        reached.count()
    })
}

fn reachable_row<B: BitBlock>(table: &mut Table, blocks: &str, here: OnGraph, nodes: usize) {
    let each = 4;
    let ends = Density::of("", nodes, nodes * each).members;
    let name = format!("`reachable`, {nodes} nodes, {each} edges each, `{blocks}`");
    table.row(&name, Work { unit: "node", units: nodes, turns: 2, numbers: &[] }, &[
        &|_, turns| unsafe { here(nodes, each, ends.as_ptr(), ends.len(), turns) },
        &|_, turns| reachable::<BitSet<B>>(each, &ends, turns),
        &|_, turns| reachable::<FixedBitSet>(each, &ends, turns),
    ]);
}

/// Closes copies of the rows by Warshall's algorithm, and adds up their edges.
fn close<S: Set>(each: usize, ends: &[usize], turns: usize) -> usize {
    let nodes = ends.len() / each;
    let rows: Vec<S> = ends.chunks(each).map(|row| S::of(nodes, row)).collect();
    total(turns, |_| {
        let mut closed = rows.clone();
        let mut via = S::for_numbers_below(nodes);
        for node in 0..nodes {
            via.clone_from(&closed[node]);
            for row in &mut closed {
                if row.contains(node) {
                    row.union_with(&via);
                }
            }
        }
        closed.iter().map(S::count).sum()
    })
}

fn close_row<B: BitBlock>(table: &mut Table, call: &str, blocks: &str, here: OnGraph, nodes: usize) {
    let each = 2;
    let ends = Density::of("", nodes, nodes * each).members;
    let name = format!("{call}, {nodes} rows, {each} edges each, `{blocks}`");
    table.row(&name, Work { unit: "row", units: nodes, turns: 2, numbers: &[] }, &[
        &|_, turns| unsafe { here(nodes, each, ends.as_ptr(), ends.len(), turns) },
        &|_, turns| close::<BitSet<B>>(each, &ends, turns),
        &|_, turns| close::<FixedBitSet>(each, &ends, turns),
    ]);
}

/// Here a matrix is closed; the peers close rows of sets, as in the rows of `close`.
const MATRIX: &str = "`transitive_closure` of a matrix";

/// Prints the table. Returns whether the sides of each row gave the same results.
pub fn race() -> bool {
    let mut table = Table::start(&["Users", "Per", "here", "over `bit-set`", "ratio", "over `fixedbitset`", "ratio"]);
    for (len, taken) in [(1_000, 900), (1 << 16, 60_000)] {
        slots_row::<u32>(&mut table, "u32", bench_slots_u32, len, taken);
        slots_row::<u64>(&mut table, "u64", bench_slots_u64, len, taken);
    }
    for nodes in [20_000, 1_000_000] {
        reachable_row::<u32>(&mut table, "u32", bench_reachable_u32, nodes);
        reachable_row::<u64>(&mut table, "u64", bench_reachable_u64, nodes);
    }
    for nodes in [500, 2_000] {
        close_row::<u32>(&mut table, "`close`", "u32", bench_close_u32, nodes);
        close_row::<u64>(&mut table, "`close`", "u64", bench_close_u64, nodes);
        close_row::<u32>(&mut table, MATRIX, "u32", bench_close_matrix_u32, nodes);
        close_row::<u64>(&mut table, MATRIX, "u64", bench_close_matrix_u64, nodes);
    }
    live_variables::rows(&mut table);
    automata::rows(&mut table);
    table.end()
}
