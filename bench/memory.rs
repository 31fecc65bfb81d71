//! How many bytes sets hold and request. This library allocates by the calls below, which replace the toolchain's;
//! other allocations are seen by the C library.
// Each program counts with only one of these.
#![allow(dead_code)]
use std::cell::Cell;
use std::ffi::c_void;
use std::hint::black_box;
use std::ptr::NonNull;

unsafe extern "C" {
    fn malloc(size: usize) -> *mut c_void;
    fn realloc(place: *mut c_void, size: usize) -> *mut c_void;
    fn free(place: *mut c_void);
    fn malloc_usable_size(place: *mut c_void) -> usize;
    fn mallinfo2() -> MallInfo;
}

/// The C library's report of its memory: the fifth number is what is mapped, the eighth the rest that is in use.
#[repr(C)]
struct MallInfo([usize; 10]);

thread_local! {
    static HELD: Cell<usize> = const { Cell::new(0) };
    static MOST: Cell<usize> = const { Cell::new(0) };
    static LAST: Cell<usize> = const { Cell::new(0) };
    static ASKED: Cell<usize> = const { Cell::new(0) };
}

/// Whether a block was allocated, and where.
#[repr(C)]
pub struct Found {
    is_there: usize,
    place: *mut c_void,
}

/// Counts the block at this place, if it was allocated.
fn found(place: *mut c_void) -> Found {
    if place.is_null() {
        return Found { is_there: 0, place: NonNull::<u128>::dangling().as_ptr().cast() };
    }
    HELD.set(HELD.get() + unsafe { malloc_usable_size(place) });
    MOST.set(MOST.get().max(HELD.get()));
    LAST.set(HELD.get());
    Found { is_there: 1, place }
}

fn ask(size: usize) {
    ASKED.set(ASKED.get() + size);
}

fn leave(place: *mut c_void) {
    HELD.set(HELD.get() - unsafe { malloc_usable_size(place) });
}

#[unsafe(no_mangle)]
extern "C" fn rattle_alloc(size: usize, align: usize) -> Found {
    ask(size);
    found(unsafe { malloc(if size == 0 { align } else { size }) })
}

#[unsafe(no_mangle)]
extern "C" fn rattle_realloc(place: *mut c_void, _old: usize, size: usize, align: usize) -> Found {
    ask(size);
    leave(place);
    let moved = unsafe { realloc(place, if size == 0 { align } else { size }) };
    if moved.is_null() {
        let kept = found(place);
        return Found { is_there: 0, ..kept };
    }
    found(moved)
}

#[unsafe(no_mangle)]
extern "C" fn rattle_dealloc(place: *mut c_void) {
    leave(place);
    unsafe { free(place) };
}

/// The most bytes that this library held during the work.
pub fn most_held(work: impl FnOnce() -> usize) -> usize {
    let before = HELD.get();
    MOST.set(before);
    black_box(work());
    MOST.get() - before
}

/// How many bytes this library held at its last request during the work.
pub fn last_held(work: impl FnOnce() -> usize) -> usize {
    let before = HELD.get();
    black_box(work());
    LAST.get() - before
}

/// How many bytes this library requested since the last call of this.
pub fn taken() -> usize {
    ASKED.replace(0)
}

fn in_use() -> usize {
    let MallInfo(info) = unsafe { mallinfo2() };
    info[4] + info[7]
}

/// How many bytes the new value holds of those allocated by the C library's calls.
pub fn held_by<T>(make: impl FnOnce() -> T) -> usize {
    let before = in_use();
    let made = black_box(make());
    let after = in_use();
    drop(made);
    after.saturating_sub(before)
}
