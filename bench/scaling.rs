//! Counts the instructions of work of some size and of four times that size, and prints a table. Work that takes linear
//! time takes four times as many, or fewer because of each call's constant part.
use crate::callgrind;
use crate::calls::*;
use crate::inputs::Random;
use crate::live_variables::random_numbers;
use crate::user_calls::*;
use std::io;

/// A pointer to numbers; their count is the next argument.
type Numbers = *const usize;

unsafe extern "C" {
    fn bench_with_slots(len: usize, turns: usize) -> usize;
    fn bench_take_each(len: usize, turns: usize) -> usize;
    fn bench_take_each_onward(len: usize, turns: usize) -> usize;
    fn bench_accepts(states: usize, ends: Numbers, m: usize, word: Numbers, n: usize, turns: usize) -> usize;
    fn bench_equivalent(states: usize, ends: Numbers, n: usize, turns: usize) -> usize;
}

/// Few turns, which are subtracted from more.
const TURNS: [usize; 2] = [2, 4];

/// The bound for work that takes linear time, at four times the size: a quarter more than four times as much.
const LINEAR: f64 = 5.0;

/// The same, if the result is 16 times as large.
const SQUARE: f64 = 20.0;

/// Work of a size n, and its bound at 4 n.
struct Row {
    name: &'static str,
    n: usize,
    most: f64,
    run: fn(n: usize, turns: usize) -> usize,
}

/// This many random numbers below 16 times as many.
fn numbers(n: usize) -> Vec<usize> {
    Random::start().numbers_below(16 * n, n)
}

/// Work on one set of `n` numbers.
macro_rules! on_set {
    ($call:ident) => {
        |n, turns| {
            let set = numbers(n);
            unsafe { $call(set.as_ptr(), set.len(), turns) }
        }
    };
}

/// Work on two sets, of the first and the second half of 2 `n` numbers; or on a set of the first half, by numbers of
/// which half are members.
macro_rules! on_two {
    ($call:ident) => {
        |n, turns| {
            let all = Random::start().numbers_below(16 * n, 2 * n);
            let (first, second) = all.split_at(n);
            unsafe { $call(first.as_ptr(), n, second.as_ptr(), n, turns) }
        }
    };
}

/// Successors for a list of `n` nodes, each the next one. The last node leads to itself.
fn chain(n: usize) -> Vec<usize> {
    (0..n).map(|node| (node + 1).min(n - 1)).collect()
}

/// How many variables the blocks of a list have.
const VARIABLES: usize = 512;

/// `n` blocks in a list, with what `bench_live_variables` reads for each: two sources, which are the block at `step`,
/// twice; a variable that it generates, eight times; and the last variable, which it kills, eight times.
fn solve_chain(n: usize, turns: usize, step: isize) -> usize {
    let mut numbers = Vec::new();
    for block in 0..n {
        // At the end this is not a block.
        numbers.extend([block.wrapping_add_signed(step); 2]);
        numbers.extend([block % VARIABLES; 8]);
        numbers.extend([VARIABLES - 1; 8]);
    }
    unsafe { bench_live_variables_u32(VARIABLES, numbers.as_ptr(), numbers.len(), turns) }
}

/// The moves of an automaton of `k + 1` states and two symbols, which accepts the words whose symbol before the last `k
/// - 1` is the second one. Its deterministic automaton has 2 ^ k states.
fn moves(k: usize) -> Vec<usize> {
    let further = (1..=k).flat_map(|state| [if state < k { state + 1 } else { 0 }; 2]);
    [0, 0].into_iter().chain(further.clone()).chain([0, 1]).chain(further).collect()
}

/// The exponent of n, which is a power of 2.
fn exponent(n: usize) -> usize {
    n.trailing_zeros() as usize
}

#[rustfmt::skip]
const ROWS: &[Row] = &[
    Row { name: "`insert` of n numbers below 16 n", n: 4_000, most: LINEAR, run: |n, turns| {
        let numbers = numbers(n);
        unsafe { bench_insert_below_u32(16 * n, numbers.as_ptr(), n, turns) }
    } },
    Row { name: "`insert` of 0, 1, 2, .. from `new`, to n", n: 8_000, most: LINEAR, run: |n, turns| {
        unsafe { bench_insert_in_order(n, turns) }
    } },
    Row { name: "`contains` of n numbers in n", n: 4_000, most: LINEAR, run: on_two!(bench_contains_u32) },
    Row { name: "`clone` of n, and `remove` of n numbers", n: 1_000, most: LINEAR, run: on_two!(bench_remove_u32) },
    Row { name: "walk of n", n: 4_000, most: LINEAR, run: on_set!(bench_walk) },
    Row { name: "walk of {0, n}", n: 1 << 20, most: LINEAR, run: |n, turns| {
        unsafe { bench_walk([0, n].as_ptr(), 2, turns) }
    } },
    Row { name: "`count` of n", n: 4_000, most: LINEAR, run: on_set!(bench_count) },
    Row { name: "`clone` of n", n: 16_000, most: LINEAR, run: on_set!(bench_clone) },
    Row { name: "`==` of n and n", n: 4_000, most: LINEAR, run: on_set!(bench_eq) },
    Row { name: "`cmp` of n and n", n: 4_000, most: LINEAR, run: on_set!(bench_cmp) },
    Row { name: "`is_subset` of n in 2 n", n: 4_000, most: LINEAR, run: on_two!(bench_is_subset) },
    Row { name: "`union_with` of n and n", n: 4_000, most: LINEAR, run: on_two!(bench_merge_union) },
    Row { name: "walk of the union of n and n", n: 4_000, most: LINEAR, run: on_two!(bench_walk_union) },
    Row { name: "`count` of that walk", n: 4_000, most: LINEAR, run: on_two!(bench_count_union) },
    Row { name: "`append` of a copy of n to n", n: 16_000, most: LINEAR, run: on_two!(bench_append) },
    Row { name: "`split_off` in the middle of n, and `append`", n: 16_000, most: LINEAR,
        run: on_set!(bench_split_off) },
    Row { name: "`with_slots` of n slots", n: 1 << 19, most: LINEAR, run: |n, turns| {
        unsafe { bench_with_slots(n, turns) }
    } },
    Row { name: "`take` of each of n slots", n: 64_000, most: LINEAR, run: |n, turns| {
        unsafe { bench_take_each(n, turns) }
    } },
    Row { name: "`take_at_or_above` of each of n slots, and then `give_back` and `take` of each, from the last on",
        n: 64_000, most: LINEAR, run: |n, turns| unsafe { bench_take_each_onward(n, turns) } },
    Row { name: "`give_back` of n random slots of n that are taken, and `take` after each", n: 64_000, most: LINEAR,
        run: |n, turns| {
            let given = Random::start().numbers_below(n, n);
            unsafe { bench_slots_u32(n, n, given.as_ptr(), n, turns) }
        } },
    Row { name: "`reachable`, n nodes, 4 random edges each", n: 25_000, most: LINEAR, run: |n, turns| {
        let ends = Random::start().numbers_below(n, 4 * n);
        unsafe { bench_reachable_u32(n, 4, ends.as_ptr(), ends.len(), turns) }
    } },
    Row { name: "`reachable`, a chain of n nodes", n: 25_000, most: LINEAR, run: |n, turns| {
        let ends = chain(n);
        unsafe { bench_reachable_u32(n, 1, ends.as_ptr(), ends.len(), turns) }
    } },
    Row { name: "`close`, a chain of n rows: n² tests, and n² / 2 unions of few blocks", n: 128, most: SQUARE,
        run: |n, turns| {
            let ends = chain(n);
            unsafe { bench_close_u32(n, 1, ends.as_ptr(), ends.len(), turns) }
        } },
    Row { name: "`solve`, values flow on through n blocks", n: 500, most: LINEAR,
        run: |n, turns| solve_chain(n, turns, -1) },
    Row { name: "`solve`, values flow back through n blocks", n: 500, most: LINEAR,
        run: |n, turns| solve_chain(n, turns, 1) },
    Row { name: "`solve`, n blocks as in the table of users", n: 500, most: LINEAR, run: |n, turns| {
        let numbers = random_numbers(n, VARIABLES);
        unsafe { bench_live_variables_u32(VARIABLES, numbers.as_ptr(), numbers.len(), turns) }
    } },
    Row { name: "`determinize` to n sets, and a search in a map for each", n: 512, most: LINEAR, run: |n, turns| {
        let ends = moves(exponent(n));
        unsafe { bench_determinize_u32(exponent(n) + 1, 2, ends.as_ptr(), ends.len(), turns) }
    } },
    Row { name: "`accepts`, a word of n letters", n: 1_500, most: LINEAR, run: |n, turns| {
        let word = Random::start().numbers_below(2, n);
        let ends = moves(8);
        unsafe { bench_accepts(9, ends.as_ptr(), ends.len(), word.as_ptr(), n, turns) }
    } },
    Row { name: "`equivalent`, n pairs reached", n: 2_048, most: LINEAR, run: |n, turns| {
        let ends = moves(exponent(n));
        unsafe { bench_equivalent(exponent(n) + 1, ends.as_ptr(), ends.len(), turns) }
    } },
];

/// Makes the turns of one row at a size, and prints the result; callgrind is run on this. The arguments are a place in
/// the list of rows, a size and the number of turns. `None` if they are not.
pub fn run_turns(words: &[String]) -> Option<()> {
    let [row, n, turns] = words else { return None };
    let row = ROWS.get(row.parse::<usize>().ok()?)?;
    println!("{}", (row.run)(n.parse().ok()?, turns.parse().ok()?));
    Some(())
}

/// Prints a row. Returns whether it stays within its bound at four times the size, and does not run out of memory.
fn show(place: usize, row: &Row) -> io::Result<bool> {
    let at = |n: usize| {
        let words = ["turns-at".to_string(), place.to_string(), n.to_string()];
        callgrind::of_a_turn(&words, TURNS)
    };
    let ((small, _), (large, result)) = (at(row.n)?, at(4 * row.n)?);
    let ratio = large / small;
    println!("| {} | {} | {small:.0} | {large:.0} | {ratio:.2} | {:.0} |", row.name, row.n, row.most);
    let finds_memory = result != usize::MAX.to_string();
    if !finds_memory || ratio > row.most {
        println!("the row above {}", if finds_memory { "takes too long at 4 n" } else { "found no memory" });
    }
    Ok(finds_memory && ratio <= row.most)
}

/// Prints the table, or that valgrind is missing. Returns whether each row is within its bound.
pub fn race() -> bool {
    if !callgrind::is_there() {
        return true;
    }
    println!("| Instructions | n | at n | at 4 n | times | at most |");
    println!("|---|---|---|---|---|---|");
    let mut are_within = true;
    for (place, row) in ROWS.iter().enumerate() {
        are_within &= show(place, row).unwrap_or_else(|fault| {
            println!("the instructions of the next row were not counted: {fault}");
            false
        });
    }
    are_within
}
