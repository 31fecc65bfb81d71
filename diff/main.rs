//! Runs scripts of random calls on this library, on the Rust crates `bit-set` and `bit-vec`, and on a plain slow
//! model, and compares what every call returns. Scripts on matrices are compared only with a model.
mod bends;
mod block_calls;
mod calls;
mod compare;
mod departures;
mod draw;
mod matrices;
mod matrix_model;
mod model;
mod model_walks;
mod ours;
mod peers;
mod random;
mod shrink;
mod sides;

use bends::{BENDS, Bend};
use calls::{CALLS, Line};
use compare::{BLOCKS, Blocks, Difference, Sides};
use departures::DEPARTURES;
use draw::{Draw, Shape};
use model::{Model, width};
use random::Random;
use std::process::ExitCode;
use std::time::Instant;

const USAGE: &str = "diff/run [CALLS [SEED]] | --script FILE | --self-test";

/// How many calls ran, how many of each kind and on sets of each size, and how often each departure occurred.
struct Tally {
    calls: usize,
    of_each: Vec<usize>,
    of_sizes: [usize; SIZES.len()],
    of_runs: usize,
    met: Vec<usize>,
}

/// Whether a set is so long that many blocks of its summary can be skipped at a time.
fn is_long(set: &Model) -> bool {
    set.len > 8 * width() * width()
}

/// Sizes of a set, each with its test.
const SIZES: [(&str, fn(&Model) -> bool); 8] = [
    ("longer than a block", |set| set.len > width()),
    ("longer than a block of the summary tells of", |set| set.len > width() * width()),
    ("longer than 8 blocks of the summary tell of", |set| set.len > 8 * width() * width()),
    ("longer than 32 blocks of the summary tell of", |set| set.len > 32 * width() * width()),
    ("longer than a million", |set| set.len > 1_000_000),
    ("of more than ten thousand elements", |set| set.elements.len() > 10_000),
    ("that are long, with elements in one block of 32 at most", |set| is_long(set) && set.elements.len() * 32 < set.blocks()),
    ("that are long, with all but one number in 16", |set| is_long(set) && set.elements.len() * 16 >= set.len * 15),
];

/// A script whose sides differ.
struct Found {
    blocks: Blocks,
    script: Vec<Line>,
}

fn main() -> ExitCode {
    let words: Vec<String> = std::env::args().skip(1).collect();
    let words: Vec<&str> = words.iter().map(String::as_str).collect();
    hide_panics_of_peers();
    match words[..] {
        ["--self-test"] => self_test(),
        ["--script", file] => run_file(file),
        [] => run(1_000_000, 1),
        [calls] => calls.parse().map_or_else(|_| misused(), |calls| run(calls, 1)),
        [calls, seed] => match (calls.parse(), seed.parse()) {
            (Ok(calls), Ok(seed)) => run(calls, seed),
            _ => misused(),
        },
        _ => misused(),
    }
}

/// A panic of the Rust crates is a difference, and is reported as one.
fn hide_panics_of_peers() {
    let tell = std::panic::take_hook();
    std::panic::set_hook(Box::new(move |panic| {
        let is_of_peers = panic.location().is_some_and(|place| place.file().contains("/cargo/registry/"));
        if !is_of_peers {
            tell(panic);
        }
    }));
}

fn misused() -> ExitCode {
    eprintln!("diff: {USAGE}");
    ExitCode::from(2)
}

/// Runs scripts over each block type in turn until this many calls were made, or two sides differ.
fn search(calls: usize, seed: u64, bend: Option<&'static Bend>, tally: &mut Tally) -> Option<Found> {
    let mut seeds = Random::new(seed);
    let peered = if bend.is_some() { &BLOCKS[..5] } else { &BLOCKS[..] };
    for turn in 0.. {
        if tally.calls >= calls {
            break;
        }
        let blocks = peered[turn % peered.len()];
        let mut sides = Sides::new(blocks, bend);
        let mut draw = Draw::new(seeds.next());
        let mut script = Vec::new();
        let difference = sides.differ(&mut script, |sets| {
            let line = draw.line(sets)?;
            tally.count(&line, &sets[line.set]);
            tally.of_runs += usize::from(draw.shape == Shape::Runs);
            Some(line)
        });
        tally.met.iter_mut().zip(&sides.met).for_each(|(all, met)| *all += met);
        if difference.is_some() {
            return Some(Found { blocks, script });
        }
    }
    None
}

impl Tally {
    fn new() -> Tally {
        Tally { calls: 0, of_each: vec![0; CALLS.len()], of_sizes: [0; SIZES.len()], of_runs: 0, met: vec![0; DEPARTURES.len()] }
    }

    fn count(&mut self, line: &Line, set: &Model) {
        self.calls += 1;
        self.of_each[line.call as usize] += 1;
        for (count, (_, holds)) in self.of_sizes.iter_mut().zip(SIZES) {
            *count += usize::from(holds(set));
        }
    }

    fn print(&self, start: Instant) {
        println!("{} calls in {:.1} s", self.calls, start.elapsed().as_secs_f64());
        for ((name, _), count) in SIZES.iter().zip(self.of_sizes) {
            println!("on sets {name}: {count}");
        }
        println!("on sets of runs: {}", self.of_runs);
        let least = CALLS.iter().zip(&self.of_each).min_by_key(|(_, count)| **count);
        least.into_iter().for_each(|(call, count)| println!("of each call at least {count} ({})", call.2));
        for (departure, count) in DEPARTURES.iter().zip(&self.met) {
            println!("departure, {count} times: {}", departure.reason);
        }
    }
}

fn run(calls: usize, seed: u64) -> ExitCode {
    let start = Instant::now();
    let mut tally = Tally::new();
    let found = search(calls, seed, None, &mut tally);
    tally.print(start);
    // A call on matrices is of few bits, and there is one for every three on sets.
    let agree = matrices::run(calls / 3, seed);
    let Some(found) = found else {
        return if agree {
            println!("no difference");
            ExitCode::SUCCESS
        } else {
            ExitCode::FAILURE
        };
    };
    let mut sides = Sides::new(found.blocks, None);
    let script = shrink::shortest(&mut sides, found.script);
    show(&mut sides, &script);
    ExitCode::FAILURE
}

/// Prints a script, and where its sides differ.
fn show(sides: &mut Sides, script: &[Line]) {
    println!("blocks {}", sides.blocks.name);
    script.iter().for_each(|line| println!("{line}"));
    let Some(Difference { line, model, other, side }) = shrink::difference(sides, script) else {
        return println!("# no difference");
    };
    match script.get(line - 1) {
        Some(call) => println!("# line {line}, {call}"),
        None => println!("# the blocks at the end"),
    }
    println!("# by {side}: {other:?}");
    println!("# by the model, with the departures: {model:?}");
}

/// Runs a script from a file: first a line `blocks TYPE` or `matrices TYPE`, and then a call in each line. A `#` begins
/// a comment.
fn run_file(file: &str) -> ExitCode {
    let text = match std::fs::read_to_string(file) {
        Ok(text) => text,
        Err(error) => {
            eprintln!("diff: {file}: {error}");
            return ExitCode::from(2);
        }
    };
    let mut lines = text.lines().filter(|line| !line.trim().is_empty() && !line.starts_with('#'));
    let head = lines.next();
    if let Some(name) = head.and_then(|line| line.strip_prefix("matrices ")) {
        return match matrices::run_lines(name.trim(), lines) {
            Some(true) => ExitCode::SUCCESS,
            Some(false) => ExitCode::FAILURE,
            None => {
                eprintln!("diff: {file} is no script");
                ExitCode::from(2)
            }
        };
    }
    let name = head.and_then(|line| line.strip_prefix("blocks "));
    let blocks = name.and_then(|name| BLOCKS.iter().find(|blocks| blocks.name == name.trim()));
    let script: Option<Vec<Line>> = lines.map(Line::parse).collect();
    let (Some(blocks), Some(script)) = (blocks, script) else {
        eprintln!("diff: {file} is no script");
        return ExitCode::from(2);
    };
    let mut sides = Sides::new(*blocks, None);
    let differs = shrink::difference(&mut sides, &script).is_some();
    show(&mut sides, &script);
    if differs { ExitCode::FAILURE } else { ExitCode::SUCCESS }
}

/// Whether each wrong call is detected; prints how.
fn self_test() -> ExitCode {
    let mut seen = 0;
    for bend in &BENDS {
        let mut tally = Tally::new();
        let Some(found) = search(200_000, 1, Some(bend), &mut tally) else {
            println!("NOT seen in {} calls: {}", tally.calls, bend.name);
            continue;
        };
        seen += 1;
        let mut sides = Sides::new(found.blocks, Some(bend));
        let script = shrink::shortest(&mut sides, found.script);
        println!("seen after {} calls: {}", tally.calls, bend.name);
        println!("    over {}:", sides.blocks.name);
        script.iter().for_each(|line| println!("    {line}"));
    }
    println!("{seen} of {} seen", BENDS.len());
    if matrices::self_test() && seen == BENDS.len() { ExitCode::SUCCESS } else { ExitCode::FAILURE }
}
