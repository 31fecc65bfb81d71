//! Counts the instructions of calls on a range of a long set, and prints a table; and of calls on a set of random
//! numbers, each beside another way to the same result: removing the least element until none is left, iteration from
//! the back, iteration over a row of a matrix, and `nth`.
use crate::callgrind;
use crate::calls::*;
use crate::inputs::Random;
use crate::peers::total;
use fixedbitset::FixedBitSet;
use std::io;

type OnRange = unsafe extern "C" fn(len: usize, start: usize, end: usize, turns: usize) -> usize;
type OnSet = unsafe extern "C" fn(members: *const usize, m: usize, turns: usize) -> usize;

unsafe extern "C" {
    fn bench_walk_row(members: *const usize, m: usize, turns: usize) -> usize;
}

/// The length of the sets, and where the ranges begin: within a block.
const LEN: usize = 1 << 24;
const START: usize = 5_000_003;
const COUNTS: [(&str, usize); 2] = [("1,000", 1_000), ("1M", 1 << 20)];

/// Few turns, which are subtracted from more.
const TURNS: [usize; 2] = [2, 12];

/// A call on a range, by this library and by the peer: each makes the turns and returns a number.
struct Call {
    name: &'static str,
    here: OnRange,
    there: fn(set: &mut FixedBitSet, from: usize, end: usize) -> usize,
}

const CALLS: [Call; 4] = [
    Call {
        name: "`insert_range`",
        here: bench_insert_range,
        there: |set, from, end| {
            set.insert_range(from..end);
            usize::from(set.contains(from))
        },
    },
    Call {
        name: "`remove_range`",
        here: bench_remove_range,
        there: |set, from, end| {
            set.set_range(from..end, false);
            usize::from(set.contains(from))
        },
    },
    Call {
        name: "`toggle_range`",
        here: bench_toggle_range,
        there: |set, from, end| {
            set.toggle_range(from..end);
            usize::from(set.contains(from))
        },
    },
    Call { name: "`count_in_range`", here: bench_count_in_range, there: |set, from, end| set.count_ones(from..end) },
];

/// A call on a set of one in sixteen numbers, and another way to the same result. The instructions are of the whole
/// call, or of each number.
struct Pair {
    word: &'static str,
    name: &'static str,
    of_each: bool,
    counts: &'static [(&'static str, usize)],
    here: OnSet,
    there: OnSet,
}

const PAIRS: [Pair; 4] = [
    Pair {
        word: "pop",
        name: "`pop_first` till empty, beside a walk and a `remove` each",
        of_each: false,
        counts: &[("64k in 1M", 1 << 16)],
        here: bench_pop_first,
        there: bench_walk_and_remove,
    },
    Pair {
        word: "back",
        name: "`iter().rev()`, beside `iter()`, an item",
        of_each: true,
        counts: &[("64k in 1M", 1 << 16), ("1M in 16M", 1 << 20)],
        here: bench_walk_back,
        there: bench_walk_u64,
    },
    Pair {
        word: "row",
        name: "`iter` of a row of a matrix, beside that of a set, an item",
        of_each: true,
        counts: &[("64k in 1M", 1 << 16), ("1M in 16M", 1 << 20)],
        here: bench_walk_row,
        there: bench_walk_u64,
    },
    Pair {
        word: "nth",
        name: "`nth` of the middle, beside the walk to there",
        of_each: false,
        counts: &[("1M in 16M", 1 << 20)],
        here: bench_nth_of_middle,
        there: bench_walk_to_middle,
    },
];

/// The set of only the last number below `LEN`.
fn long_set() -> FixedBitSet {
    let mut set = FixedBitSet::with_capacity(LEN);
    set.insert(LEN - 1);
    set
}

/// Makes the turns of one call by one side, and prints the result; callgrind is run on this. The arguments are a place
/// in the list of calls, or the name of a pair, a side, how many numbers and the number of turns. `None` if they are
/// not.
pub fn run_turns(words: &[String]) -> Option<()> {
    let [call, side, count, turns] = words else { return None };
    let (count, turns): (usize, usize) = (count.parse().ok()?, turns.parse().ok()?);
    let result = if let Some(pair) = PAIRS.iter().find(|pair| pair.word == call) {
        let members = Random::start().numbers_below(16 * count, count);
        let (m, ms) = (members.len(), members.as_ptr());
        match side.as_str() {
            "here" => unsafe { (pair.here)(ms, m, turns) },
            _ => unsafe { (pair.there)(ms, m, turns) },
        }
    } else {
        let call = CALLS.get(call.parse::<usize>().ok()?)?;
        let end = START + count;
        match side.as_str() {
            "here" => unsafe { (call.here)(LEN, START, end, turns) },
            _ => {
                let mut set = long_set();
                total(turns, |turn| (call.there)(&mut set, START + turn % 2, end))
            }
        }
    };
    println!("{result}");
    Some(())
}

/// The instructions a turn of both sides, and whether these gave the same results.
fn sides(call: &str, count: usize) -> io::Result<([f64; 2], bool)> {
    let words = |side: &str| ["turns-of-range".to_string(), call.to_string(), side.to_string(), count.to_string()];
    let (here, result) = callgrind::of_a_turn(&words("here"), TURNS)?;
    let (there, other) = callgrind::of_a_turn(&words("there"), TURNS)?;
    Ok(([here, there], result == other))
}

/// Prints the rows. Returns whether the sides of each gave the same results.
fn rows() -> io::Result<bool> {
    let mut agrees = true;
    for (label, count) in COUNTS {
        for (place, call) in CALLS.iter().enumerate() {
            let ([here, there], same) = sides(&place.to_string(), count)?;
            println!("| {} | {label} in 16M | {here:.0} | {there:.0} | {:.2} |", call.name, here / there);
            agrees &= same;
        }
    }
    for pair in &PAIRS {
        for (label, count) in pair.counts {
            let ([here, there], same) = sides(pair.word, *count)?;
            let (items, digits) = if pair.of_each { (*count as f64, 1) } else { (1.0, 0) };
            let (here, there) = (here / items, there / items);
            println!("| {} | {label} | {here:.digits$} | {there:.digits$} | {:.2} |", pair.name, here / there);
            agrees &= same;
        }
    }
    Ok(agrees)
}

/// Prints the table, or that valgrind is missing. Returns whether the sides of each row gave the same results.
pub fn race() -> bool {
    if !callgrind::is_there() {
        return true;
    }
    println!("| Instructions | Numbers | here (`u64`) | `fixedbitset` | ratio |");
    println!("|---|---|---|---|---|");
    rows().unwrap_or_else(|fault| {
        println!("the instructions of the next row were not counted: {fault}");
        false
    })
}
