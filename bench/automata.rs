//! Rows of the subset construction.
use crate::inputs::Random;
use crate::peers::{Set, total};
use crate::table::{Table, Work};
use crate::user_calls::*;
use bit_set::BitSet;
use bit_vec::BitBlock;
use fixedbitset::FixedBitSet;
use std::collections::BTreeMap;

type OnAutomaton = unsafe extern "C" fn(states: usize, each: usize, *const usize, usize, turns: usize) -> usize;

/// Sets in the order in which they were found, and the number of each.
struct Numbering<S> {
    sets: Vec<S>,
    numbers: BTreeMap<S, usize>,
}

impl<S: Set> Numbering<S> {
    fn new() -> Self {
        Numbering { sets: Vec::new(), numbers: BTreeMap::new() }
    }

    /// The number of the set, which is copied if it is new.
    fn number_of(&mut self, set: &S) -> usize {
        if let Some(number) = self.numbers.get(set) {
            return *number;
        }
        let number = self.sets.len();
        self.numbers.insert(set.clone(), number);
        self.sets.push(set.clone());
        number
    }
}

/// An automaton: `moves[symbol][state]` has the states to which the symbol leads from the state.
struct Nfa<S> {
    states: usize,
    moves: Vec<Vec<S>>,
    starts: S,
    accepting: S,
}

impl<S: Set> Nfa<S> {
    /// The automaton of two symbols that starts in state 0 and accepts in the last one, where each symbol leads from
    /// each state to `each` states. The first half of the ends belongs to the first symbol.
    fn of(states: usize, each: usize, ends: &[usize]) -> Self {
        let rows = |ends: &[usize]| ends.chunks(each).map(|row| S::of(states, row)).collect();
        let moves = ends.chunks(states * each).map(rows).collect();
        Nfa { states, moves, starts: S::of(states, &[0]), accepting: S::of(states, &[states - 1]) }
    }

    /// Sets `into` to the states to which the symbol leads from those in `from`.
    fn step(&self, symbol: usize, from: &S, into: &mut S) {
        into.clear();
        for state in from.walk() {
            if let Some(successors) = self.moves[symbol].get(state) {
                into.union_with(successors);
            }
        }
    }

    /// How many states the deterministic automaton has. This also makes its table and its accepting states.
    fn determinize(&self) -> usize {
        let mut numbering = Numbering::new();
        numbering.number_of(&self.starts);
        let mut into = S::for_numbers_below(self.states);
        let mut next = Vec::new();
        let mut state = 0;
        while state < numbering.sets.len() {
            for symbol in 0..self.moves.len() {
                self.step(symbol, &numbering.sets[state], &mut into);
                next.push(numbering.number_of(&into));
            }
            state += 1;
        }
        let mut accepting = S::for_numbers_below(state);
        for (number, set) in numbering.sets.iter().enumerate() {
            if !set.is_disjoint(&self.accepting) {
                accepting.insert(number);
            }
        }
        std::hint::black_box((&next, &accepting));
        state
    }
}

/// Adds up how many states the deterministic automata have.
fn count_states<S: Set>(states: usize, each: usize, ends: &[usize], turns: usize) -> usize {
    let nfa = Nfa::<S>::of(states, each, ends);
    total(turns, |_| nfa.determinize())
}

fn row<B: BitBlock>(table: &mut Table, blocks: &str, here: OnAutomaton, states: usize, each: usize) {
    let ends = Random::start().numbers_below(states, 2 * states * each);
    let sets = count_states::<FixedBitSet>(states, each, &ends, 1);
    let name = format!("`determinize`, {states} states, {each} successors each by 2 symbols, {sets} sets, `{blocks}`");
    table.row(&name, Work { unit: "set", units: sets, turns: 2, numbers: &[] }, &[
        &|_, turns| unsafe { here(states, each, ends.as_ptr(), ends.len(), turns) },
        &|_, turns| count_states::<BitSet<B>>(states, each, &ends, turns),
        &|_, turns| count_states::<FixedBitSet>(states, each, &ends, turns),
    ]);
}

pub fn rows(table: &mut Table) {
    for (states, each) in [(64, 2), (400, 3)] {
        row::<u32>(table, "u32", bench_determinize_u32, states, each);
        row::<u64>(table, "u64", bench_determinize_u64, states, each);
    }
}
