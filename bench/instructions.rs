//! Counts the instructions of calls on small sets, and prints a table.
use crate::callgrind;
use crate::small::{CALLS, Input};
use std::io;

const LENGTHS: [usize; 3] = [64, 500, 4_000];
const LARGE: usize = 1 << 24;
const SIDES: [&str; 3] = ["here", "bit-set", "fixedbitset"];
const TURNS: [usize; 2] = [100, 1_100];
const TURNS_OF_LARGE: [usize; 2] = [2, 12];

/// The calls that are also counted at the large length: those that pass over all blocks and make no new set.
const OF_LARGE: [&str; 8] = [
    "`union_with`",
    "`intersect_with`",
    "`difference_with`",
    "`symmetric_difference_with`",
    "`==` of equal sets",
    "`is_subset` of more",
    "`is_disjoint` of disjoint sets",
    "`count`",
];

/// Makes the turns of one call by one side, and prints the result; callgrind is run on this. The arguments are a place
/// in the list of calls, a side, a length and the number of turns. `None` if they are not.
pub fn run_turns(words: &[String]) -> Option<()> {
    let [call, side, len, turns] = words else { return None };
    let call = CALLS.get(call.parse::<usize>().ok()?)?;
    let result = call.result(side, &Input::of(len.parse().ok()?), turns.parse().ok()?)?;
    println!("{result}");
    Some(())
}

/// The instructions a call of each side, in the order of `SIDES`. If two sides give different results, prints that and
/// sets `agrees` to false.
fn instructions(call: usize, len: usize, agrees: &mut bool) -> io::Result<Vec<f64>> {
    let mut counts = Vec::new();
    let mut results = Vec::new();
    let turns = if len == LARGE { TURNS_OF_LARGE } else { TURNS };
    for side in SIDES {
        let words = ["turns".to_string(), call.to_string(), side.to_string(), len.to_string()];
        let (count, result) = callgrind::of_a_turn(&words, turns)?;
        counts.push(count);
        results.push(result);
    }
    if results.iter().any(|result| *result != results[0]) {
        println!("the sides of the next row give different results: {results:?}");
        *agrees = false;
    }
    Ok(counts)
}

/// Prints the rows. Returns whether the sides of each gave the same results.
fn rows() -> io::Result<bool> {
    let mut agrees = true;
    for len in LENGTHS.into_iter().chain([LARGE]) {
        for (place, call) in CALLS.iter().enumerate() {
            if len == LARGE && !OF_LARGE.contains(&call.name) {
                continue;
            }
            let counts = instructions(place, len, &mut agrees)?;
            let better = counts[1].min(counts[2]);
            print!("| {} | {len} | {:.0} | {:.0} | {:.0} |", call.name, counts[0], counts[1], counts[2]);
            println!(" {:.2} |", counts[0] / better);
        }
    }
    Ok(agrees)
}

/// Prints the table, or that valgrind is missing. Returns whether the sides of each row gave the same results.
pub fn race() -> bool {
    if !callgrind::is_there() {
        return true;
    }
    println!("| Instructions | Bits | here | `bit-set` | `fixedbitset` | ratio to the better |");
    println!("|---|---|---|---|---|---|");
    rows().unwrap_or_else(|fault| {
        println!("the instructions of the next row were not counted: {fault}");
        false
    })
}
