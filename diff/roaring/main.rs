//! Makes random calls of this repository's Roaring bitmaps and of CRoaring, and compares the result of each and the
//! bytes that both write and read.
mod bends;
mod calls;
mod croaring;
mod damage;
mod draw;
mod examples;
#[path = "../../bench/memory.rs"]
mod memory;
#[path = "../random.rs"]
mod random;
mod shrink;
mod sides;
mod walks;

use bends::{BENDS, Bend};
use calls::{CALLS, Line};
use croaring::Calls;
use draw::Draw;
use random::Random;
use sides::{Difference, differ};
use std::process::ExitCode;
use std::time::Instant;

const USAGE: &str =
    "diff/run roaring [CALLS [SEED]] | roaring --damaged [COPIES [SEED]] | roaring --examples | roaring --script FILE | roaring --self-test";

/// How many of the calls were made, and how many members their sets had.
struct Tally {
    of_each: Vec<usize>,
    calls: usize,
    large: usize,
}

fn main() -> ExitCode {
    let words: Vec<String> = std::env::args().skip(1).collect();
    let Some((library, words)) = words.split_first() else { return misused() };
    let Some(calls) = Calls::open(library) else {
        eprintln!("diff: CRoaring cannot be opened: {library}");
        return ExitCode::from(2);
    };
    let numbers = |words: &[&str], count: usize| -> Option<(usize, u64)> {
        let number = |place: usize, default: u64| words.get(place).map_or(Some(default), |word| word.parse().ok());
        (words.len() <= 2).then_some(())?;
        Some((number(0, count as u64)? as usize, number(1, 1)?))
    };
    let words: Vec<&str> = words.iter().map(String::as_str).collect();
    let passed = match &words[..] {
        ["--self-test"] => Some(self_test(&calls)),
        ["--script", file] => run_file(&calls, file),
        ["--examples", files @ ..] => Some(examples::run(&calls, files)),
        ["--damaged", rest @ ..] => numbers(rest, 1_000_000).map(|(copies, seed)| damage::run(&calls, copies, seed)),
        rest => numbers(rest, 1_000_000).map(|(count, seed)| run(&calls, count, seed)),
    };
    match passed {
        Some(true) => ExitCode::SUCCESS,
        Some(false) => ExitCode::FAILURE,
        None => misused(),
    }
}

fn misused() -> ExitCode {
    eprintln!("diff: {USAGE}");
    ExitCode::from(2)
}

/// Runs scripts until this many calls were made, or the sides of one differ: then returns that script.
fn search(
    calls: &Calls,
    count: usize,
    seed: u64,
    bend: Option<&Bend>,
    tally: &mut Tally,
) -> Option<Vec<Line>> {
    let mut seeds = Random::new(seed);
    while tally.calls < count {
        let mut draw = Draw::new(seeds.next(), draw::LINES.min(count - tally.calls));
        let mut script = Vec::new();
        let difference = differ(calls, bend, &mut script, |sets| {
            let line = draw.line(sets)?;
            tally.calls += 1;
            tally.of_each[line.call as usize] += 1;
            tally.large += usize::from(sets[line.set].len() > 4_096);
            Some(line)
        });
        if difference.is_some() {
            return Some(script);
        }
    }
    None
}

fn of_lines(calls: &Calls, bend: Option<&Bend>, script: &[Line]) -> Option<Difference> {
    let mut rest = script.iter();
    differ(calls, bend, &mut Vec::new(), |_| rest.next().cloned())
}

impl Tally {
    fn new() -> Tally {
        Tally { of_each: vec![0; CALLS.len()], calls: 0, large: 0 }
    }
}

fn run(calls: &Calls, count: usize, seed: u64) -> bool {
    let start = Instant::now();
    let mut tally = Tally::new();
    let found = search(calls, count, seed, None, &mut tally);
    println!("{} calls in {:.1} s", tally.calls, start.elapsed().as_secs_f64());
    println!("on sets of more members than a list has: {}", tally.large);
    let least = CALLS.iter().zip(&tally.of_each).min_by_key(|(_, count)| **count);
    least.into_iter().for_each(|(call, count)| println!("of each call at least {count} ({})", call.1));
    let Some(script) = found else {
        println!("no difference");
        return true;
    };
    show(calls, &shrink::shortest(script, |lines| of_lines(calls, None, lines).is_some()));
    false
}

/// Prints a script, and where its sides differ.
fn show(calls: &Calls, script: &[Line]) {
    script.iter().for_each(|line| println!("{line}"));
    match of_lines(calls, None, script) {
        Some(Difference { line, peer, ours, reason }) => {
            println!("# line {line}: {reason}");
            println!("# CRoaring, and how many members its set then has: {peer:?}");
            println!("# this library: {ours:?}");
        }
        None => println!("# no difference"),
    }
}

/// Runs the lines of a file. Returns whether the sides agree, or `None` if it is not a script.
fn run_file(calls: &Calls, file: &str) -> Option<bool> {
    let text = std::fs::read_to_string(file).ok()?;
    let lines = text.lines().filter(|line| !line.trim().is_empty() && !line.starts_with('#'));
    let script: Vec<Line> = lines.map(Line::parse).collect::<Option<_>>()?;
    show(calls, &script);
    Some(of_lines(calls, None, &script).is_none())
}

/// Whether each wrong call is detected; prints how.
fn self_test(calls: &Calls) -> bool {
    let mut seen = 0;
    for bend in &BENDS {
        let mut tally = Tally::new();
        let Some(script) = search(calls, 200_000, 1, Some(bend), &mut tally) else {
            println!("NOT seen in {} calls: {}", tally.calls, bend.name);
            continue;
        };
        seen += 1;
        println!("seen after {} calls: {}", tally.calls, bend.name);
        let script = shrink::shortest(script, |lines| of_lines(calls, Some(bend), lines).is_some());
        script.iter().for_each(|line| println!("    {line}"));
    }
    println!("{seen} of {} seen", BENDS.len());
    seen == BENDS.len()
}
