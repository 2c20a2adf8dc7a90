//! Memory of simulated processes. One that is killed drops nothing, as in a real crash, but its memory has to be
//! returned: a target has about 10 MB, and a run kills hundreds. So this file calls the C library's allocator for the
//! program, notes which process has each large block, and frees those of a process that is gone.
//!
//! A subsystem has 4 MiB of zeros for each controller, of which a run touches little. The system gives a huge block as
//! pages that are zeros and take no time until they are touched. So `memset` leaves such a block as it is.
//!
//! Why it is safe: only fibers of a process use its blocks, and none of them runs again. What the world keeps is
//! allocated while `with` runs, and so has no process. Each function passes its arguments to the C library's. A huge
//! block is allocated as zeros, and is zeros until it is written: it is only left out of the first call of this file
//! after its allocation, if that is to fill it with zeros from its beginning on.

use std::cell::Cell;
use std::os::raw::{c_int, c_void};

/// A block of this size is large.
const LARGE: usize = 16 << 10;
/// The most large blocks of all processes; more are never freed.
const MOST: usize = 4096;

/// A block of this size is huge: the C library maps it.
const HUGE: usize = 1 << 20;
const M_MMAP_THRESHOLD: c_int = -3;

extern "C" {
    fn __libc_malloc(size: usize) -> *mut c_void;
    fn __libc_calloc(count: usize, size: usize) -> *mut c_void;
    fn __libc_realloc(block: *mut c_void, size: usize) -> *mut c_void;
    fn __libc_free(block: *mut c_void);
    fn __memset_chk(block: *mut c_void, byte: c_int, count: usize, size: usize) -> *mut c_void;
    fn malloc_usable_size(block: *mut c_void) -> usize;
    fn mallopt(parameter: c_int, value: c_int) -> c_int;
}

struct Blocks {
    /// The process that runs; 0 if none does.
    owner: Cell<usize>,
    count: Cell<usize>,
    /// The huge block that the last call has allocated, and its size; 0 if it has not.
    zeros: Cell<(usize, usize)>,
    /// Blocks, and the processes that have them.
    list: [Cell<(usize, usize)>; MOST],
}

#[allow(clippy::declare_interior_mutable_const)]
const NONE: Cell<(usize, usize)> = Cell::new((0, 0));

thread_local! {
    // Without a destructor and an allocation, so that it can be used at any time.
    static BLOCKS: Blocks = const { Blocks { owner: Cell::new(0), count: Cell::new(0), zeros: NONE, list: [NONE; MOST] } };
}

/// Names the process that allocates from now on; the one before.
pub fn set_owner(process: usize) -> usize {
    BLOCKS.with(|it| it.owner.replace(process))
}

/// Does something that allocates for no process.
pub fn of_no_process<R>(act: impl FnOnce() -> R) -> R {
    let owner = set_owner(0);
    let result = act();
    set_owner(owner);
    result
}

fn note(block: *mut c_void, size: usize) -> *mut c_void {
    if size >= LARGE && !block.is_null() {
        BLOCKS.with(|it| {
            let count = it.count.get();
            if it.owner.get() != 0 && count < MOST {
                it.list[count].set((block as usize, it.owner.get()));
                it.count.set(count + 1);
            }
        });
    }
    block
}

fn forget(block: *mut c_void) {
    BLOCKS.with(|it| {
        let count = it.count.get();
        if let Some(at) = (0..count).rev().find(|at| it.list[*at].get().0 == block as usize) {
            it.list[at].set(it.list[count - 1].get());
            it.count.set(count - 1);
        }
    });
}

/// Frees the large blocks of a process.
pub fn free_all(process: usize) {
    BLOCKS.with(|it| {
        let mut at = 0;
        while at < it.count.get() {
            let (block, owner) = it.list[at].get();
            if owner == process {
                it.count.set(it.count.get() - 1);
                it.list[at].set(it.list[it.count.get()].get());
                unsafe { __libc_free(block as *mut c_void) };
            } else {
                at += 1;
            }
        }
    });
}

/// From now on huge blocks are mapped, whatever was freed before. Call this before there is one.
pub fn begin() {
    unsafe { mallopt(M_MMAP_THRESHOLD, HUGE as c_int) };
}

/// The huge block that the last call has allocated, and its size. It is asked for once.
fn take_zeros() -> (usize, usize) {
    BLOCKS.with(|it| it.zeros.take())
}

#[no_mangle]
extern "C" fn malloc(size: usize) -> *mut c_void {
    if size < HUGE {
        take_zeros();
        return note(unsafe { __libc_malloc(size) }, size);
    }
    let block = note(unsafe { __libc_calloc(1, size) }, size);
    BLOCKS.with(|it| it.zeros.set((block as usize, size)));
    block
}

#[no_mangle]
extern "C" fn memset(block: *mut c_void, byte: c_int, count: usize) -> *mut c_void {
    let (zeros, size) = take_zeros();
    if byte == 0 && zeros == block as usize && count <= size {
        return block;
    }
    // The compiler makes a call of `memset` of it if it sees that both numbers are the same.
    unsafe { __memset_chk(block, byte, count, std::ptr::read_volatile(&count)) }
}

#[no_mangle]
extern "C" fn calloc(count: usize, size: usize) -> *mut c_void {
    take_zeros();
    note(unsafe { __libc_calloc(count, size) }, count.saturating_mul(size))
}

#[no_mangle]
extern "C" fn realloc(block: *mut c_void, size: usize) -> *mut c_void {
    take_zeros();
    if !block.is_null() && unsafe { malloc_usable_size(block) } >= LARGE {
        forget(block);
    }
    note(unsafe { __libc_realloc(block, size) }, size)
}

#[no_mangle]
extern "C" fn free(block: *mut c_void) {
    take_zeros();
    if !block.is_null() && unsafe { malloc_usable_size(block) } >= LARGE {
        forget(block);
    }
    unsafe { __libc_free(block) };
}
