//! Times the sides of a row, and prints the row.
use std::hint::black_box;

/// What a row times: turns, each of `units` units of work.
pub struct Work<'a> {
    pub unit: &'static str,
    pub units: usize,
    /// The least number of turns of each side.
    pub turns: usize,
    /// The numbers of each turn. The time of the same turns over no numbers is subtracted; or, if there are no numbers,
    /// that of no turn.
    pub numbers: &'a [usize],
}

/// A side makes this many turns over these numbers, and returns a result. The sides of a row are in the order of the
/// table: this library, `bit-set` and, if it has the call, `fixedbitset`.
pub type Side<'a> = &'a dyn Fn(&[usize], usize) -> usize;

/// The work must take this many times as long as the set-up that is subtracted.
const SHARE: f64 = 10.0;
/// The share while the turns are doubled. It is greater, since the times then are not those of the row.
const SHARE_AT_FIRST: f64 = 15.0;
/// The most turns of a side, which some loops use as numbers below the lengths of their sets.
const MOST_TURNS: usize = 1 << 19;
/// Seconds of processor time for one run of a side, and for all of a row.
const LONGEST_RUN: f64 = 0.5;
const LONGEST_ROW: f64 = 4.0;
const ROUNDS: usize = 7;
const FEWEST_ROUNDS: usize = 3;

/// Processor time of this process in seconds, which other work on the machine affects less than wall-clock time.
fn now() -> f64 {
    unsafe extern "C" {
        fn clock_gettime(clock: i32, time: *mut [i64; 2]) -> i32;
    }
    const OF_PROCESS: i32 = 2;
    let mut time = [0; 2];
    unsafe { clock_gettime(OF_PROCESS, &mut time) };
    time[0] as f64 + time[1] as f64 * 1e-9
}

/// A side with its number of turns, and its least times in seconds.
struct Timed<'a> {
    run: Side<'a>,
    turns: usize,
    set_up: f64,
    whole: f64,
}

impl Timed<'_> {
    fn start(run: Side, turns: usize) -> Timed {
        Timed { run, turns, set_up: f64::MAX, whole: f64::MAX }
    }

    /// Runs the side once with only its set-up and once with all of its turns.
    fn round(&mut self, numbers: &[usize]) {
        let empty_turns = if numbers.is_empty() { 0 } else { self.turns };
        let start = now();
        black_box((self.run)(&[], empty_turns));
        let middle = now();
        black_box((self.run)(numbers, self.turns));
        let end = now();
        self.set_up = self.set_up.min(middle - start);
        self.whole = self.whole.min(end - middle);
    }

    /// Whether the work took this many times as long as what is subtracted.
    fn is_mostly_work(&self, share: f64) -> bool {
        self.whole - self.set_up >= share * self.set_up
    }

    /// Doubles the turns until the work takes its share, or a run its longest time.
    fn calibrate(&mut self, numbers: &[usize]) {
        loop {
            (self.set_up, self.whole) = (f64::MAX, f64::MAX);
            self.round(numbers);
            if self.is_mostly_work(SHARE_AT_FIRST) || self.whole > LONGEST_RUN || self.turns * 2 > MOST_TURNS {
                return;
            }
            self.turns *= 2;
        }
    }
}

/// The times of a row's sides.
struct Times {
    /// Nanoseconds a unit, of each side.
    of_sides: Vec<f64>,
    /// Whether each side's work took its share.
    are_mostly_work: bool,
}

/// A table in progress.
pub struct Table {
    agrees: bool,
    has_marks: bool,
}

impl Table {
    /// Prints the head of a table with these columns.
    pub fn start(columns: &[&str]) -> Table {
        println!("| {} |", columns.join(" | "));
        println!("|{}", "---|".repeat(columns.len()));
        Table { agrees: true, has_marks: false }
    }

    /// Prints the remarks below the rows. Returns whether the sides of each row had the same results.
    pub fn end(self) -> bool {
        if self.has_marks {
            println!();
            println!("`*`: the work of a side took less than ten times what is taken off for its set-up.");
        }
        self.agrees
    }

    /// Compares the results of the sides after the same number of turns.
    fn compare(&mut self, results: &[usize]) {
        if results.iter().any(|result| *result != results[0]) {
            println!("the sides of the next row give different results: {results:?}");
            self.agrees = false;
        }
    }

    /// Runs the sides one after another, repeatedly.
    fn times(&mut self, work: &Work, sides: &[Side]) -> Times {
        let mut sides: Vec<Timed> = sides.iter().map(|run| Timed::start(*run, work.turns)).collect();
        for side in &mut sides {
            side.calibrate(work.numbers);
        }
        let common = sides.iter().map(|side| side.turns).min().unwrap_or(0);
        let results: Vec<usize> = sides.iter().map(|side| (side.run)(work.numbers, common)).collect();
        self.compare(&results);
        let round: f64 = sides.iter().map(|side| side.set_up + side.whole).sum();
        let rounds = ((LONGEST_ROW / round) as usize).clamp(FEWEST_ROUNDS, ROUNDS);
        for _ in 0..rounds {
            for side in &mut sides {
                side.round(work.numbers);
            }
        }
        let per_unit = |side: &Timed| (side.whole - side.set_up) * 1e9 / (work.units * side.turns) as f64;
        Times {
            of_sides: sides.iter().map(per_unit).collect(),
            are_mostly_work: sides.iter().all(|side| side.is_mostly_work(SHARE)),
        }
    }

    /// Prints the name and the unit of a row, and marks it if its times are less reliable.
    fn print_name(&mut self, name: &str, unit: &str, times: &Times) {
        let mark = if times.are_mostly_work { "" } else { " *" };
        self.has_marks |= !times.are_mostly_work;
        print!("| {name}{mark} | {unit} |");
    }

    /// Prints the time of each side, and the ratio of this library's to each other. There are at most two peers.
    pub fn row(&mut self, name: &str, work: Work, sides: &[Side]) {
        let sides: [Option<Side>; 3] = std::array::from_fn(|place| sides.get(place).copied());
        self.row_beside(name, work, &sides);
    }

    /// The same beside any number of peers, some of which may lack the call.
    pub fn row_beside(&mut self, name: &str, work: Work, sides: &[Option<Side>]) {
        let there: Vec<Side> = sides.iter().flatten().copied().collect();
        let times = self.times(&work, &there);
        self.print_name(name, work.unit, &times);
        let here = times.of_sides[0];
        print!(" {here:.2} |");
        let mut of_peers = times.of_sides[1..].iter();
        for side in &sides[1..] {
            match side.and_then(|_| of_peers.next()) {
                Some(time) => print!(" {time:.2} | {:.2} |", here / time),
                None => print!(" | |"),
            }
        }
        println!();
    }

    /// Prints only the time of each side.
    pub fn row_of_times(&mut self, name: &str, work: Work, sides: &[Side]) {
        let times = self.times(&work, sides);
        self.print_name(name, work.unit, &times);
        for time in &times.of_sides {
            print!(" {time:.2} |");
        }
        println!();
    }
}
