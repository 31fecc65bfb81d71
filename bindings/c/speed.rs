//! Times calls of this library through its Rust package beside the crate `bit-set`, both over blocks of the same width and
//! in one program: the least of many rounds, taken in turns. With the argument `instructions` it counts instructions
//! instead, by callgrind. `put` is of blocks by `bit_set_put_blocks`, which no package calls, beside a copy to a slice.
use clients::Draws;
use std::env;
use std::ffi::c_void;
use std::hint::black_box;
use std::io;
use std::ptr::null_mut;
use std::time::Instant;

mod callgrind;

const LIMIT: usize = 1 << 20;
const ROUNDS: usize = 60;
const FIVE: [usize; 5] = [3, 40, 70, 100, 120];
const ROWS: [&str; 21] = [
    "contains", "insert", "remove", "grow", "walk 1", "walk 2", "walk 16", "walk 64", "walk 256", "walk 4096",
    "walk 65536", "union 2", "union 256", "intersection 2", "intersection 256", "difference 2", "difference 256",
    "symmetric 2", "symmetric 256", "put 64", "put 8192",
];
const SMALL_ROWS: [&str; 5] = ["five: walk", "five: first", "five: clone", "five: kept clones", "new"];
const TURNS: [usize; 2] = [1, 3];

extern "C" {
    fn bit_set_new(out: *mut *mut c_void) -> bool;
    fn bit_set32_new(out: *mut *mut c_void) -> bool;
    fn bit_set_put_blocks(set: *mut c_void, from: usize, blocks: *const u64, count: usize) -> bool;
    fn bit_set32_put_blocks(set: *mut c_void, from: usize, blocks: *const u32, count: usize) -> bool;
}

// A set by C's calls, which is not freed before the program ends.
fn made(new: unsafe extern "C" fn(*mut *mut c_void) -> bool) -> *mut c_void {
    let mut set = null_mut();
    assert!(unsafe { new(&mut set) });
    set
}

// Functions that put blocks into such a set, or copy them to a slice, from the block of this index on.
macro_rules! puts {
    ($($block:ty: $ours:ident by $new:ident, $put:ident, $theirs:ident;)*) => {
        $(
            fn $ours() -> impl FnMut(usize, &[$block]) {
                let set = made($new);
                move |from, blocks| assert!(unsafe { $put(set, from, blocks.as_ptr(), blocks.len()) })
            }

            fn $theirs() -> impl FnMut(usize, &[$block]) {
                let mut slice = vec![0; LIMIT / <$block>::BITS as usize];
                move |from, blocks| {
                    slice[from..from + blocks.len()].copy_from_slice(blocks);
                    black_box(&mut slice);
                }
            }
        )*
    };
}

puts! {
    u32: ours32_puts by bit_set32_new, bit_set32_put_blocks, theirs32_puts;
    u64: ours64_puts by bit_set_new, bit_set_put_blocks, theirs64_puts;
}

macro_rules! sides {
    ($($name:ident is $set:path, of $block:ident, $puts:ident;)*) => {
        $(
            mod $name {
                use super::*;
                type Set = $set;

                // A set of about one number in `every` below LIMIT, and of LIMIT - 1.
                fn filled(every: usize, seed: u64) -> Set {
                    let mut draws = Draws(seed);
                    let mut set: Set = (0..LIMIT).filter(|_| draws.below(every) == 0).collect();
                    set.insert(LIMIT - 1);
                    set
                }

                // Ten thousand calls on a set of five, which the compiler must take for another one at each call.
                fn small_row(name: &str) -> Box<dyn FnMut() -> usize> {
                    let five: Set = FIVE.iter().copied().collect();
                    if name == "five: kept clones" {
                        return Box::new(move || (0..10_000).map(|_| black_box(&five).clone()).collect::<Vec<_>>().len());
                    }
                    let times = |call: fn(&Set) -> usize| {
                        Box::new(move || (0..10_000).fold(0, |a, _| a ^ call(black_box(&five)))) as Box<dyn FnMut() -> usize>
                    };
                    match name {
                        "five: walk" => times(|set| set.iter().fold(0, |a, n| a ^ n)),
                        "five: first" => times(|set| set.iter().next().unwrap()),
                        "five: clone" => times(|set| { black_box(set.clone()); 0 }),
                        _ => times(|_| { black_box(Set::default()); 0 }),
                    }
                }

                // Puts all blocks of a set, this many at a time.
                fn put_row(at_a_time: usize) -> Box<dyn FnMut() -> usize> {
                    let (mut draws, mut put) = (Draws(7), $puts());
                    let blocks: Vec<$block> = (0..LIMIT / $block::BITS as usize).map(|_| draws.below(usize::MAX) as $block).collect();
                    Box::new(move || {
                        let parts = black_box(&blocks).chunks(at_a_time).enumerate();
                        parts.map(|(k, part)| put(k * at_a_time, part)).count()
                    })
                }

                pub fn row(name: &str, numbers: &[usize]) -> Box<dyn FnMut() -> usize> {
                    if SMALL_ROWS.contains(&name) {
                        return small_row(name);
                    }
                    let (call, every) = name.split_once(' ').unwrap_or((name, "2"));
                    let every: usize = every.parse().unwrap();
                    if call == "put" {
                        return put_row(every);
                    }
                    let (mut set, other, numbers) = (filled(every, 3), filled(every, 5), numbers.to_vec());
                    match call {
                        "contains" => Box::new(move || numbers.iter().filter(|&&n| set.contains(n)).count()),
                        "insert" => Box::new(move || numbers.iter().filter(|&&n| set.insert(n)).count()),
                        "remove" => Box::new(move || numbers.iter().filter(|&&n| set.remove(n)).count()),
                        "grow" => Box::new(move || {
                            let mut set = Set::default();
                            (0..LIMIT).filter(|&n| set.insert(n)).count()
                        }),
                        "walk" => Box::new(move || set.iter().fold(0, |a, n| a ^ n)),
                        "union" => Box::new(move || set.union(&other).fold(0, |a, n| a ^ n)),
                        "intersection" => Box::new(move || set.intersection(&other).fold(0, |a, n| a ^ n)),
                        "difference" => Box::new(move || set.difference(&other).fold(0, |a, n| a ^ n)),
                        "symmetric" => Box::new(move || set.symmetric_difference(&other).fold(0, |a, n| a ^ n)),
                        _ => panic!("there is no row {}", name),
                    }
                }
            }
        )*
    };
}

sides! {
    ours32 is bit_set::BitSet<u32>, of u32, ours32_puts;
    theirs32 is peer::BitSet<u32>, of u32, theirs32_puts;
    ours64 is bit_set::BitSet<u64>, of u64, ours64_puts;
    theirs64 is peer::BitSet<u64>, of u64, theirs64_puts;
}

type Side = fn(&str, &[usize]) -> Box<dyn FnMut() -> usize>;

const SIDES: [(&str, Side); 4] =
    [("ours32", ours32::row), ("theirs32", theirs32::row), ("ours64", ours64::row), ("theirs64", theirs64::row)];

// The least time of each side in many rounds of a row, taken in turns.
fn times(name: &str, numbers: &[usize]) -> Vec<f64> {
    let mut runs: Vec<_> = SIDES.iter().map(|(_, row)| row(name, numbers)).collect();
    let mut least = vec![f64::MAX; runs.len()];
    for _ in 0..ROUNDS {
        for (run, least) in runs.iter_mut().zip(&mut least) {
            let start = Instant::now();
            black_box(run());
            *least = least.min(start.elapsed().as_secs_f64() * 1e3);
        }
    }
    least
}

// The instructions of each side of a row, in thousands.
fn instructions(name: &str) -> io::Result<Vec<f64>> {
    let of_side = |side: &str| callgrind::of_a_turn(&[name.to_string(), side.to_string()], TURNS);
    SIDES.iter().map(|(side, _)| Ok(of_side(side)?.0 / 1e3)).collect()
}

fn main() -> io::Result<()> {
    let mut draws = Draws(9);
    let numbers: Vec<usize> = (0..LIMIT).map(|_| draws.below(LIMIT)).collect();
    let words: Vec<String> = env::args().skip(1).collect();
    if let [name, side, turns] = &words[..] {
        let (_, row) = SIDES.iter().find(|(name, _)| name == side).expect("there is no such side");
        let mut run = row(name, &numbers);
        println!("{}", (0..turns.parse().unwrap()).fold(0, |a, _| a ^ black_box(run())));
        return Ok(());
    }
    let counts = words == ["instructions"];
    let unit = if counts { "thousand instructions" } else { "ms" };
    println!("| row, in {unit} | ours, `u32` | `bit-set` | ratio | ours, `u64` | `bit-set` | ratio |");
    println!("|---|---|---|---|---|---|---|");
    for name in ROWS.iter().chain(&SMALL_ROWS) {
        let row = if counts { instructions(name)? } else { times(name, &numbers) };
        print!("| {name} |");
        row.chunks(2).for_each(|pair| print!(" {:.3} | {:.3} | {:.2} |", pair[0], pair[1], pair[0] / pair[1]));
        println!();
    }
    Ok(())
}
