//! Counts the instructions of repeated work, by valgrind's tool callgrind. Other work on the machine does not affect
//! these counts.
use std::env;
use std::io;
use std::process::Command;

/// The instructions of a run, and the result of its turns.
struct Run {
    instructions: u64,
    result: String,
}

/// Runs this program with these arguments under callgrind.
fn run(words: &[String]) -> io::Result<Run> {
    let output = Command::new("valgrind")
        .args(["--tool=callgrind", "--callgrind-out-file=/dev/null"])
        .arg(env::current_exe()?)
        .args(words)
        .output()?;
    let said = String::from_utf8_lossy(&output.stderr);
    let collected = said.lines().find_map(|line| line.split("Collected :").nth(1));
    match collected.and_then(|count| count.trim().parse().ok()) {
        Some(instructions) if output.status.success() => {
            Ok(Run { instructions, result: String::from_utf8_lossy(&output.stdout).trim().to_string() })
        }
        _ => Err(io::Error::other(format!("callgrind counted nothing: {said}"))),
    }
}

/// The instructions of a turn, and the result of the longer run: this program is run with these arguments and then a
/// number of turns, first few and then more.
pub fn of_a_turn(words: &[String], [few, many]: [usize; 2]) -> io::Result<(f64, String)> {
    let with = |turns: usize| run(&[words, &[turns.to_string()]].concat());
    let (less, more) = (with(few)?, with(many)?);
    Ok(((more.instructions - less.instructions) as f64 / (many - few) as f64, more.result))
}

/// Whether valgrind is there. Prints a message if not.
pub fn is_there() -> bool {
    let is_there = Command::new("valgrind").arg("--version").output().is_ok_and(|output| output.status.success());
    if !is_there {
        println!("No instructions were counted: valgrind is missing, which Debian's package of that name has.");
    }
    is_there
}
