//! Rows of live variables.
use crate::inputs::Random;
use crate::peers::{Flow, total};
use crate::sparse_peers::SparseBits;
use crate::table::{Side, Table, Work};
use crate::user_calls::*;
use bit_set::BitSet;
use bit_vec::BitBlock;
use fixedbitset::FixedBitSet;

type OnBlocks = unsafe extern "C" fn(variables: usize, *const usize, usize, turns: usize) -> usize;

/// How many successors a block has, and how many variables are in each of its sets.
const SUCCESSORS: usize = 2;
const EACH: usize = 8;

/// The numbers of each block: its successors, and the variables that it generates and kills. A block's successors are
/// the next block and, with a chance of a quarter, any block, else the one after the next.
pub fn random_numbers(blocks: usize, variables: usize) -> Vec<usize> {
    numbers_of_live(blocks, variables, 1)
}

/// The same, if only one in `apart` variables is ever read or written.
fn numbers_of_live(blocks: usize, variables: usize, apart: usize) -> Vec<usize> {
    let mut random = Random::start();
    let mut numbers = Vec::new();
    for block in 0..blocks {
        let second = if random.below(4) == 0 { random.below(blocks) } else { (block + 2) % blocks };
        numbers.extend([(block + 1) % blocks, second]);
        let chosen = random.numbers_below(variables / apart, 2 * EACH);
        numbers.extend(chosen.iter().map(|number| number * apart));
    }
    numbers
}

/// A block: its successors, the variables that it reads before it writes them, and those that it writes.
struct Block<'a, S> {
    successors: &'a [usize],
    generated: S,
    killed: S,
}

impl<'a, S: Flow> Block<'a, S> {
    fn of(variables: usize, numbers: &'a [usize]) -> Self {
        let (successors, sets) = numbers.split_at(SUCCESSORS);
        let (generated, killed) = sets.split_at(EACH);
        Block { successors, generated: S::of(variables, generated), killed: S::of(variables, killed) }
    }

    /// Sets `into` to the variables that are live at the block's start, from those at its successors' starts.
    fn gather(&self, live: &[S], into: &mut S) {
        into.clear();
        for successor in self.successors {
            into.union_with(&live[*successor]);
        }
        into.difference_with(&self.killed);
        into.union_with(&self.generated);
    }

    /// Sets `into` to a set of the block, and what its successors have and it does not kill.
    fn gather_new(&self, live: &[S], own: &S, into: &mut S) {
        match self.successors.split_first() {
            Some((first, rest)) => {
                into.clone_from(&live[*first]);
                for successor in rest {
                    into.union_with(&live[*successor]);
                }
                into.difference_with(&self.killed);
                into.union_with(own);
            }
            None => into.clone_from(own),
        }
    }
}

/// The variables that are live at the start of each block. Passes over the blocks from the last to the first until no
/// set changes.
fn solve<S: Flow>(variables: usize, blocks: &[Block<S>]) -> Vec<S> {
    let mut live = vec![S::of(variables, &[]); blocks.len()];
    let mut spare = S::of(variables, &[]);
    let mut has_changed = true;
    while has_changed {
        has_changed = false;
        for (number, block) in blocks.iter().enumerate().rev() {
            block.gather(&live, &mut spare);
            if live[number] != spare {
                live[number].clone_from(&spare);
                has_changed = true;
            }
        }
    }
    live
}

/// The same sets, by the fewest passes that these calls allow. A block is skipped if the sets of its successors did not
/// grow since it was visited. Its inflow is built in a spare set, together with what the block has; that is compared
/// with the old set, and replaces it.
fn solve_by_changes<S: Flow>(variables: usize, blocks: &[Block<S>]) -> Vec<S> {
    let mut live: Vec<S> = blocks.iter().map(|block| block.generated.clone()).collect();
    let mut spare = S::of(variables, &[]);
    // When the set of each block last grew, and when the block was last visited.
    let (mut grew, mut visited) = (vec![1; blocks.len()], vec![0; blocks.len()]);
    let mut now = 1;
    let mut has_changed = true;
    while has_changed {
        has_changed = false;
        for (number, block) in blocks.iter().enumerate().rev() {
            if block.successors.iter().all(|successor| grew[*successor] <= visited[number]) {
                continue;
            }
            visited[number] = now;
            block.gather_new(&live, &live[number], &mut spare);
            if live[number] != spare {
                std::mem::swap(&mut live[number], &mut spare);
                now += 1;
                grew[number] = now;
                has_changed = true;
            }
        }
    }
    live
}

/// Adds up how many variables are live at the starts of the blocks.
fn count_live<S: Flow>(
    variables: usize,
    numbers: &[usize],
    turns: usize,
    solve: impl Fn(usize, &[Block<S>]) -> Vec<S>,
) -> usize {
    let blocks: Vec<Block<S>> =
        numbers.chunks(SUCCESSORS + 2 * EACH).map(|row| Block::of(variables, row)).collect();
    total(turns, |_| solve(variables, &blocks).iter().map(Flow::count).sum())
}

fn row<B: BitBlock>(table: &mut Table, blocks: &str, here: OnBlocks, count: usize, variables: usize) {
    let numbers = random_numbers(count, variables);
    let name = format!("`solve`, live variables, {count} blocks, {variables} variables, `{blocks}`");
    table.row(&name, Work { unit: "block", units: count, turns: 2, numbers: &[] }, &[
        &|_, turns| unsafe { here(variables, numbers.as_ptr(), numbers.len(), turns) },
        &|_, turns| count_live::<BitSet<B>>(variables, &numbers, turns, solve),
        &|_, turns| count_live::<FixedBitSet>(variables, &numbers, turns, solve),
    ]);
    let name = format!("`solve` beside loops that pass over what did not change, {count} blocks, {variables} variables, `{blocks}`");
    table.row(&name, Work { unit: "block", units: count, turns: 2, numbers: &[] }, &[
        &|_, turns| unsafe { here(variables, numbers.as_ptr(), numbers.len(), turns) },
        &|_, turns| count_live::<BitSet<B>>(variables, &numbers, turns, solve_by_changes),
        &|_, turns| count_live::<FixedBitSet>(variables, &numbers, turns, solve_by_changes),
    ]);
}

/// A row of the table of sparse sets: many variables, of which 20 are live.
pub fn row_of_few(table: &mut Table) {
    let (count, variables) = (2_000, 100_000);
    let numbers = numbers_of_live(count, variables, variables / 20);
    let here: Side = &|_, turns| unsafe { bench_live_variables_u64(variables, numbers.as_ptr(), numbers.len(), turns) };
    let sides = [
        Some(here),
        None,
        Some(&|_, turns| count_live::<SparseBits>(variables, &numbers, turns, solve_by_changes)),
        Some(&|_, turns| count_live::<FixedBitSet>(variables, &numbers, turns, solve_by_changes)),
        None,
    ];
    let name = format!("`solve` of {count} blocks with {variables} variables of which 20 are live");
    table.row_beside(&name, Work { unit: "block", units: count, turns: 2, numbers: &[] }, &sides);
}

pub fn rows(table: &mut Table) {
    for (blocks, variables) in [(2_000, 500), (2_000, 5_000), (300, 50_000)] {
        row::<u32>(table, "u32", bench_live_variables_u32, blocks, variables);
        row::<u64>(table, "u64", bench_live_variables_u64, blocks, variables);
    }
}
