//! Times Roaring bitmaps of this repository beside CRoaring, as Debian builds it and as it is built here, beside this
//! repository's sets of bits and beside `BTreeSet`, over five inputs; and prints how many bytes each holds. Ends with
//! status 1 if two sides give different results.
mod calls;
#[path = "../diff/roaring/croaring.rs"]
mod croaring;
mod inputs;
mod memory;
mod peers;
mod roaring_sides;
mod table;

use inputs::{Random, overlapping};
use roaring_sides::{CALLS, bytes_held, open_both, sides_of};
use std::env;
use std::process::ExitCode;
use table::{Table, Work};

/// Numbers of two sets, in ascending order, and others to look up.
pub struct Input {
    label: &'static str,
    sets: [Vec<u32>; 2],
    numbers: Vec<u32>,
}

impl Input {
    /// The numbers to look up are below `len`, and half of them are members.
    fn of(label: &'static str, len: usize, sets: [Vec<usize>; 2]) -> Input {
        let narrow = |numbers: Vec<usize>| numbers.into_iter().map(|number| number as u32).collect();
        let sets: [Vec<u32>; 2] = sets.map(narrow);
        let mut numbers: Vec<u32> = narrow(Random::start().numbers_below(len, 10_000));
        numbers.iter_mut().step_by(2).for_each(|number| *number = sets[0][*number as usize % sets[0].len()]);
        Input { label, sets, numbers }
    }
}

fn inputs() -> [Input; 5] {
    let of = |label, len, count, run| Input::of(label, len, overlapping(len, count, run));
    let every_second = [1, 2].map(|unit| (0..1 << 20).filter(|number| number / unit % 2 == 0).collect());
    [
        of("1k in 1M", 1 << 20, 1_000, 1),
        of("1k in 1G", 1 << 30, 1_000, 1),
        of("64k in 1G", 1 << 30, 1 << 16, 1),
        of("1k runs of 1k in 1G", 1 << 30, 1_000, 1_000),
        Input::of("every second in 1M", 1 << 20, every_second),
    ]
}

/// Prints a row of how many bytes each set holds.
fn row_of_bytes(input: &Input) {
    let held = bytes_held(input);
    let bytes = |side: usize| held[side].map_or(String::new(), |bytes| bytes.to_string());
    let ratio = |side: usize| held[0].zip(held[side]).map_or(String::new(), |(here, there)| format!("{:.2}", here as f64 / there as f64));
    print!("| bytes held, {} | set | {} |", input.label, bytes(0));
    (1..held.len()).for_each(|side| print!(" {} | {} |", bytes(side), ratio(side)));
    println!();
}

fn main() -> ExitCode {
    if !open_both() {
        eprintln!("bench: CRoaring is missing: its path is to be in the environment as CROARING");
        return ExitCode::from(2);
    }
    let mut columns = vec!["Roaring bitmaps", "Per", "here"];
    let built = format!("CRoaring for {}", env::var("PROCESSOR").as_deref().unwrap_or("this"));
    for peer in ["CRoaring", &built, "`BitSet<u64>`", "`BTreeSet`"] {
        columns.extend([peer, "ratio"]);
    }
    let mut table = Table::start(&columns);
    for input in &inputs() {
        for (work, (name, unit)) in CALLS.iter().enumerate() {
            let units = match *unit {
                "item" => input.sets[0].len(),
                "number" => input.numbers.len(),
                _ => 1,
            };
            let sides = sides_of(work, input);
            let sides: Vec<Option<table::Side>> = sides.iter().map(|side| side.as_deref().map(|side| side as table::Side)).collect();
            let work = Work { unit, units, turns: 4, numbers: &[] };
            table.row_beside(&format!("{name}, {}", input.label), work, &sides);
        }
        row_of_bytes(input);
    }
    if table.end() { ExitCode::SUCCESS } else { ExitCode::FAILURE }
}
