//! This library's side: the static library `crates/diff_calls`.
use crate::calls::Line;

unsafe extern "C" {
    fn diff_run(bits: usize, script: *const usize, n: usize, places: *mut usize, m: usize) -> usize;
    fn diff_run_matrices(bits: usize, script: *const usize, n: usize, places: *mut usize, m: usize) -> usize;
}

/// Runs a script, which replaces `places` by the results of its calls and the blocks of all sets at the end. Returns
/// false if memory runs out. The bits are those of a block, or 0 for `usize`.
pub fn run(bits: usize, lines: &[Line], places: &mut Vec<usize>) -> bool {
    let mut script = Vec::new();
    for line in lines {
        line.write_words(&mut script);
    }
    run_words(diff_run, bits, &script, places)
}

/// The same for a script on matrices.
pub fn run_matrices(bits: usize, script: &[usize], places: &mut Vec<usize>) -> bool {
    run_words(diff_run_matrices, bits, script, places)
}

type OnScript = unsafe extern "C" fn(bits: usize, *const usize, usize, places: *mut usize, usize) -> usize;

fn run_words(call: OnScript, bits: usize, script: &[usize], places: &mut Vec<usize>) -> bool {
    loop {
        let room = places.len();
        let (script, n) = (script.as_ptr(), script.len());
        let count = unsafe { call(bits, script, n, places.as_mut_ptr(), room) };
        if count == usize::MAX {
            return false;
        }
        places.resize(count.max(room), 0);
        if count <= room {
            places.truncate(count);
            return true;
        }
    }
}
