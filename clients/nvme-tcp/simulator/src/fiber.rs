//! Fibers: stacks between which one thread switches. A simulated thread is a fiber. The one file of the simulator with
//! unsafe code, for x86-64.
//!
//! Why it is safe: `simulator_switch` keeps the registers that a call must keep, on the stack that it leaves, and a
//! stack lives as long as its fiber. A fiber that has ended, or was killed, is never resumed.

use std::cell::Cell;
use std::panic::{catch_unwind, AssertUnwindSafe};

std::arch::global_asm!(
    ".globl simulator_switch",
    "simulator_switch:",
    "push rbp",
    "push rbx",
    "push r12",
    "push r13",
    "push r14",
    "push r15",
    "mov [rdi], rsp",
    "mov rsp, rsi",
    "pop r15",
    "pop r14",
    "pop r13",
    "pop r12",
    "pop rbx",
    "pop rbp",
    "ret",
    ".globl simulator_begin",
    "simulator_begin:",
    "mov rdi, r12",
    "call r13",
    "ud2",
);

extern "C" {
    fn simulator_switch(leave: *mut usize, enter: usize);
    fn simulator_begin();
}

/// What a fiber runs.
pub type Work = Box<dyn FnOnce()>;

thread_local! {
    /// The stack pointer of the simulator itself while a fiber runs.
    static ROOT: Cell<usize> = const { Cell::new(0) };
    /// The place that keeps the running fiber's.
    static CURRENT: Cell<*mut usize> = const { Cell::new(std::ptr::null_mut()) };
}

/// A fiber that is not running.
pub struct Fiber {
    _stack: Vec<u128>,
    left: Box<usize>,
}

impl Fiber {
    /// A fiber that has not begun. `end` is called with the text of a panic, if there was one, and must not return.
    pub fn new(size: usize, work: Work, end: fn(Option<String>)) -> Fiber {
        let mut stack: Vec<u128> = Vec::with_capacity(size / 16);
        let top = stack.as_mut_ptr() as usize + size / 16 * 16;
        let begun = Box::into_raw(Box::new((work, end))) as usize;
        // In the order of the pops, and then the address to which `ret` goes. The stack is aligned after that.
        let frame = [0, 0, enter as *const () as usize, begun, 0, 0, simulator_begin as *const () as usize, 0, 0];
        let left = top - frame.len() * 8;
        unsafe { std::ptr::copy_nonoverlapping(frame.as_ptr(), left as *mut usize, frame.len()) };
        Fiber { _stack: stack, left: Box::new(left) }
    }

    /// The place that keeps its stack pointer.
    pub fn place(&mut self) -> *mut usize {
        &mut *self.left
    }
}

/// The first function on the stack of a fiber.
extern "C" fn enter(begun: *mut (Work, fn(Option<String>))) {
    let (work, end) = *unsafe { Box::from_raw(begun) };
    let panicked = catch_unwind(AssertUnwindSafe(work)).err().map(|it| match it.downcast::<String>() {
        Ok(text) => *text,
        Err(it) => it.downcast::<&'static str>().map_or_else(|_| "a panic".to_owned(), |it| (*it).to_owned()),
    });
    end(panicked);
    std::process::abort();
}

/// Runs a fiber until it calls `leave`. The simulator itself calls this.
pub fn resume(place: *mut usize) {
    CURRENT.with(|it| it.set(place));
    let root = ROOT.with(std::cell::Cell::as_ptr);
    unsafe { simulator_switch(root, *place) };
    CURRENT.with(|it| it.set(std::ptr::null_mut()));
}

/// Whether a fiber runs.
pub fn is_inside() -> bool {
    CURRENT.with(|it| !it.get().is_null())
}

/// Continues the simulator. It returns when the fiber is resumed.
pub fn leave() {
    let place = CURRENT.with(std::cell::Cell::get);
    assert!(!place.is_null(), "only a fiber can wait");
    let root = ROOT.with(std::cell::Cell::get);
    unsafe { simulator_switch(place, root) };
}
