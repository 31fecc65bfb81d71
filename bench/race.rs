//! Times the same work by this repository's library and by the Rust crates `bit-set` and `fixedbitset`, and prints a
//! table of it:
//!
//! - `work`: calls on sets and bit vectors;
//! - `calls`: only those on one number;
//! - `users`: libraries that use this one, beside the same loops over the sets of those crates;
//! - `widths`: this library over three types of blocks;
//! - `instructions`: calls on small sets, by their instructions;
//! - `ranges`: calls on ranges of long sets, by their instructions;
//! - `sparse`: sets of few numbers in a wide range and of runs, beside sets that take memory by their members;
//! - `scaling`: this library's calls and users at some size and at four times that, by their instructions.
//!
//! Ends with status 1 if two sides give different results or a row of `scaling` takes too long, and with 2 if there is
//! no such table.
mod automata;
mod callgrind;
mod calls;
#[path = "../diff/roaring/croaring.rs"]
mod croaring;
mod growing;
mod inputs;
mod instructions;
mod live_variables;
mod pairs;
mod parts;
mod peers;
mod ranges;
mod scaling;
mod single;
mod small;
mod sparse;
mod sparse_peers;
mod sparse_sets;
mod table;
mod user_calls;
mod users;
mod whole;
mod widths;

use inputs::Density;
use std::env;
use std::process::ExitCode;
use table::Table;

/// Prints the table of the calls. Returns whether the sides of each row gave the same results.
fn race_work() -> bool {
    let mut table = Table::start(&["Work", "Per", "here", "`bit-set`", "ratio", "`fixedbitset`", "ratio"]);
    let sparse = Density::of("64k in 1M", 1 << 20, 1 << 16);
    let dense = Density::of("1M in 1M", 1 << 20, 1 << 20);
    let wide = Density::of("1M in 16M", 1 << 24, 1 << 20);
    for density in [&sparse, &dense] {
        single::rows(&mut table, density);
    }
    for density in [&sparse, &dense, &wide] {
        whole::rows(&mut table, density);
    }
    pairs::rows(&mut table, &wide);
    for density in [&sparse, &wide] {
        pairs::rows_of_moves(&mut table, density);
    }
    pairs::rows_of_tests(&mut table, &wide);
    sparse::rows(&mut table);
    growing::rows(&mut table);
    let few = Density::of("16k in 16M", 1 << 24, 1 << 14);
    parts::rows(&mut table, &[&sparse, &few]);
    table.end()
}

/// Prints the times of the calls on one number, which depend on the place of this program's code.
fn race_calls() -> bool {
    let mut table = Table::start(&["Work", "Per", "here", "`bit-set`", "ratio", "`fixedbitset`", "ratio"]);
    for density in [Density::of("64k in 1M", 1 << 20, 1 << 16), Density::of("1M in 1M", 1 << 20, 1 << 20)] {
        single::rows(&mut table, &density);
    }
    table.end()
}

/// Prints the table that the arguments name. Returns whether its sides agree, or `None` if there is no such table.
fn race(words: &[String]) -> Option<bool> {
    let (table, rest) = words.split_first()?;
    match table.as_str() {
        "work" => Some(race_work()),
        "calls" => Some(race_calls()),
        "users" => Some(users::race()),
        "widths" => Some(widths::race()),
        "instructions" => Some(instructions::race()),
        "ranges" => Some(ranges::race()),
        "sparse" => Some(sparse_sets::race()),
        "scaling" => Some(scaling::race()),
        "turns" => instructions::run_turns(rest).map(|()| true),
        "turns-of-range" => ranges::run_turns(rest).map(|()| true),
        "turns-at" => scaling::run_turns(rest).map(|()| true),
        _ => None,
    }
}

fn main() -> ExitCode {
    let words: Vec<String> = env::args().skip(1).collect();
    match race(&words) {
        Some(true) => ExitCode::SUCCESS,
        Some(false) => ExitCode::FAILURE,
        None => {
            eprintln!("usage: race work | calls | users | widths | instructions | ranges | sparse | scaling");
            ExitCode::from(2)
        }
    }
}
