//! The calls of the package `roaring` that bench/roaring_doors.py times. Each line is a call, and the least
//! processor time of some rounds in nanoseconds.
//!   roaring_doors BITS      of numbers of so many bits
use roaring::RoaringBitmap;
use std::hint::black_box;
use std::mem::MaybeUninit;
use std::time::Duration;

const NUMBERS: u32 = 1_000_000;
const ROUNDS: usize = 9;

/// Linux's clock of the processor time of the process.
const CLOCK: i32 = 2;

extern "C" {
    fn clock_gettime(clock: i32, time: *mut [i64; 2]) -> i32;
}

fn now() -> Duration {
    let mut time = MaybeUninit::uninit();
    // SAFETY: the call writes the seconds and the nanoseconds, each of 64 bits.
    let [seconds, nanoseconds] = unsafe {
        assert_eq!(clock_gettime(CLOCK, time.as_mut_ptr()), 0);
        time.assume_init()
    };
    Duration::new(seconds as u64, nanoseconds as u32)
}

fn row<T>(name: &str, mut call: impl FnMut() -> T) {
    let taken = (0..ROUNDS).map(|_| {
        let start = now();
        let made = black_box(call());
        let taken = now() - start;
        drop(made);
        taken
    });
    println!("{name} {}", taken.min().unwrap_or_default().as_nanos());
}

fn main() {
    let bits: u32 = std::env::args().nth(1).and_then(|word| word.parse().ok()).expect("a number of bits");
    let numbers: Vec<u32> = (0..NUMBERS).map(|at| at.wrapping_mul(2_654_435_761) >> (32 - bits)).collect();
    let (half, rest) = numbers.split_at(numbers.len() / 2);
    // Those that ascend, each once.
    let mut ascending = numbers.clone();
    ascending.sort_unstable();
    ascending.dedup();
    let middle = &numbers[half.len() / 2..][..half.len()];
    let [one, other]: [RoaringBitmap; 2] = [half, middle].map(|part| part.iter().collect());
    let mut bytes = Vec::with_capacity(one.serialized_size());
    row("in", || rest.iter().filter(|number| one.contains(**number)).count());
    row("add", || {
        let mut set = RoaringBitmap::new();
        half.iter().for_each(|number| {
            set.insert(*number);
        });
        set
    });
    row("array", || numbers.iter().collect::<RoaringBitmap>());
    row("ascending", || RoaringBitmap::from_sorted_iter(ascending.iter().copied()));
    row("or", || &one | &other);
    row("and", || &one & &other);
    row("serialize", || {
        bytes.clear();
        one.serialize_into(&mut bytes)
    });
    row("deserialize", || RoaringBitmap::deserialize_from(&bytes[..]));
    row("walk", || one.iter().map(u64::from).sum::<u64>());
}
