//! Damaged copies of good bytes: CRoaring must accept what this library accepts, with the same members, and no copy may
//! request more memory than a fixed multiple of its length.
use crate::croaring::{Calls, Set};
use crate::memory;
use crate::random::Random;
use crate::sides::digest_of_walk;
use std::ops::Range;
use std::time::Instant;

/// How many times its length a copy may request.
const MULTIPLE: usize = 11;

/// The most bytes that a reader is asked for at once.
const PIECE: usize = 8_192;

/// The faults by their numbers in `crates/roaring_calls`; 0 stands for none.
const FAULTS: [&str; 10] =
    ["taken", "Short", "Cookie", "TooMany", "Keys", "Offset", "Cardinality", "Order", "Runs", "Memory"];

unsafe extern "C" {
    fn roaring_read(bytes: *const u8, n: usize, places: *mut usize, m: usize) -> usize;
    fn roaring_read_from(bytes: *const u8, n: usize, most: usize, places: *mut usize, m: usize) -> usize;
}

/// This library's result for bytes: the number of the fault, how many bytes the set takes, how many members it has, and
/// a digest of these.
pub fn read(bytes: &[u8]) -> (usize, [usize; 3]) {
    let mut words = [0; 3];
    let fault = unsafe { roaring_read(bytes.as_ptr(), bytes.len(), words.as_mut_ptr(), words.len()) };
    (fault, words)
}

/// The same if the bytes come in pieces of at most this many.
fn read_from(bytes: &[u8], most: usize) -> (usize, [usize; 3]) {
    let mut words = [0; 3];
    let fault = unsafe { roaring_read_from(bytes.as_ptr(), bytes.len(), most, words.as_mut_ptr(), words.len()) };
    (fault, words)
}

pub fn name_of(fault: usize) -> &'static str {
    FAULTS.get(fault).copied().unwrap_or("?")
}

/// What is wrong with the result for a copy, if anything.
fn wrong(calls: &Calls, bytes: &[u8], words: &[usize; 3]) -> Option<&'static str> {
    let Some((set, len)) = Set::of_bytes(calls, bytes) else { return Some("CRoaring takes no set") };
    if len != words[0] {
        return Some("CRoaring takes another number of bytes");
    }
    if set.len() as usize != words[1] || digest_of_walk(&set.numbers(), words[1]) != words[2] {
        return Some("CRoaring reads other members");
    }
    None
}

/// A good set: random, clustered, dense or of runs, in some containers.
fn good_set<'a>(calls: &'a Calls, random: &mut Random) -> Set<'a> {
    let mut set = Set::new(calls);
    for _ in 0..1 + random.below(6) {
        let start = 65_536 * random.of(&[0, 1, 2, 3, 65_535, 40_000]) + random.below(65_536);
        let step = random.of(&[1, 1, 2, 3, 40, 7_001]);
        let count = random.of(&[1, 3, 30, 400, 5_000]);
        for turn in 0..1 + random.below(count) {
            set.insert((start + step * turn) as u32);
        }
    }
    set
}

/// A part of the bytes, usually a short one near the front, where the header is.
fn part(random: &mut Random, len: usize) -> Range<usize> {
    let most = if random.once_in(2) { len.min(64) } else { len };
    let start = random.below(most);
    let count = random.of(&[1, 2, 2, 4, 8, 100]);
    start..(start + count).min(len)
}

/// Damages bytes, which must not be empty, in one of several ways.
fn damage(random: &mut Random, bytes: &mut Vec<u8>) {
    let len = bytes.len();
    match random.below(8) {
        0 | 1 => {
            let place = part(random, len).start;
            bytes[place] ^= 1 << random.below(8);
        }
        2 => bytes.truncate(random.below(len)),
        3 => {
            let (one, two) = (part(random, len), part(random, len));
            let count = one.len().min(two.len());
            (0..count).for_each(|place| bytes.swap(one.start + place, two.start + place));
        }
        4 => {
            let copied = part(random, len);
            let copy = bytes[copied].to_vec();
            let place = random.below(len);
            bytes.splice(place..place, copy);
        }
        5 => drop(bytes.drain(part(random, len))),
        6 => {
            let number = random.of(&[0, 1, 2, 255, 4_095, 4_096, 4_097, 65_535]) as u16;
            let place = part(random, len).start / 2 * 2;
            bytes[place..].iter_mut().zip(number.to_le_bytes()).for_each(|(byte, new)| *byte = new);
        }
        _ => {
            for place in part(random, len) {
                bytes[place] = random.next() as u8;
            }
        }
    }
}

/// The results for damaged copies.
struct Tally {
    of_faults: [usize; FAULTS.len()],
    /// How many copies differed from the good bytes and were accepted.
    changed: usize,
    /// The most memory requested, as a multiple of the length.
    most: f64,
    /// The same for a reader, without its first piece.
    most_in_pieces: f64,
    wrong: usize,
}

/// Reads a copy on both sides.
fn try_copy(calls: &Calls, good: &[u8], bytes: &[u8], tally: &mut Tally) {
    memory::taken();
    let (fault, words) = read(bytes);
    let asked = memory::taken();
    tally.of_faults[fault] += 1;
    tally.most = tally.most.max(asked as f64 / bytes.len().max(1) as f64);
    let in_pieces = read_from(bytes, 1 + bytes.len() % 100);
    let past_piece = memory::taken().saturating_sub(PIECE);
    tally.most_in_pieces = tally.most_in_pieces.max(past_piece as f64 / bytes.len().max(1) as f64);
    let mut reason = (asked > MULTIPLE * bytes.len()).then_some("it asks for more memory than it may");
    reason = reason.or((in_pieces != (fault, words)).then_some("it reads something else of a reader"));
    if fault == 0 {
        tally.changed += usize::from(!bytes.starts_with(good));
        reason = reason.or(wrong(calls, bytes, &words));
    }
    if let Some(reason) = reason {
        tally.wrong += 1;
        let shown: Vec<String> = bytes.iter().take(300).map(|byte| format!("{byte:02x}")).collect();
        println!("{reason}: {} bytes, {}", bytes.len(), shown.join(" "));
    }
}

/// Reads this many damaged copies. Returns whether all results were allowed.
pub fn run(calls: &Calls, copies: usize, seed: u64) -> bool {
    let start = Instant::now();
    let mut random = Random::new(seed);
    let mut tally = Tally { of_faults: [0; FAULTS.len()], changed: 0, most: 0.0, most_in_pieces: 0.0, wrong: 0 };
    let mut done = 0;
    while done < copies && tally.wrong < 5 {
        let mut set = good_set(calls, &mut random);
        if random.once_in(2) {
            set.optimize();
        }
        let good = set.bytes();
        for _ in 0..100.min(copies - done) {
            let mut bytes = good.clone();
            for _ in 0..random.of(&[1, 1, 1, 2, 4]) {
                if !bytes.is_empty() {
                    damage(&mut random, &mut bytes);
                }
            }
            try_copy(calls, &good, &bytes, &mut tally);
            done += 1;
        }
    }
    println!("{done} damaged copies in {:.1} s, {} of them taken as other sets", start.elapsed().as_secs_f64(), tally.changed);
    for (name, count) in FAULTS.iter().zip(tally.of_faults) {
        println!("{name}: {count}");
    }
    println!("memory: at most {:.2} times the length", tally.most);
    println!("memory for a reader: at most {PIECE} bytes and {:.2} times the length", tally.most_in_pieces);
    tally.wrong == 0
}
