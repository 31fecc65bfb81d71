//! This library's side of what stands above the sets, with a name for each call: `crates/bench_user_calls/src/calls.rt` has
//! one function, and a number says which call it makes.
use crate::calls::Numbers;

unsafe extern "C" {
    fn bench_user(
        call: usize,
        bits: usize,
        len: usize,
        each: usize,
        numbers: Numbers,
        n: usize,
        turns: usize,
    ) -> usize;
}

/// Calls on slots, graphs and automata, by the number of the call and the bits of a block.
macro_rules! on_edges {
    ($($name:ident = $call:literal, $bits:literal;)*) => {
        $(pub unsafe extern "C" fn $name(len: usize, each: usize, numbers: Numbers, n: usize, turns: usize) -> usize {
            unsafe { bench_user($call, $bits, len, each, numbers, n, turns) }
        })*
    };
}

on_edges! {
    bench_slots_u32 = 0, 32;
    bench_slots_u64 = 0, 64;
    bench_reachable_u32 = 1, 32;
    bench_reachable_u64 = 1, 64;
    bench_close_u32 = 2, 32;
    bench_close_u64 = 2, 64;
    bench_close_matrix_u32 = 3, 32;
    bench_close_matrix_u64 = 3, 64;
    bench_determinize_u32 = 4, 32;
    bench_determinize_u64 = 4, 64;
}

pub unsafe extern "C" fn bench_live_variables_u32(variables: usize, numbers: Numbers, n: usize, turns: usize) -> usize {
    unsafe { bench_user(5, 32, variables, 0, numbers, n, turns) }
}

pub unsafe extern "C" fn bench_live_variables_u64(variables: usize, numbers: Numbers, n: usize, turns: usize) -> usize {
    unsafe { bench_user(5, 64, variables, 0, numbers, n, turns) }
}
