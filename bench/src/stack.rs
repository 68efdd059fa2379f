//! How much stack a call needs: it runs on a thread of its own, whose stack is painted before and
//! looked at afterwards. What is no longer paint was used.

use std::thread;

const STACK_BYTES: usize = 4 << 20;
const PAINTED_BYTES: usize = 2 << 20;
const WORD: usize = 8;
const PAINT: u64 = 0x5eed_9a17_c0a7_b10b;

/// Bytes of stack that `run` used, from its caller's frame down.
pub fn depth(run: impl FnOnce() + Send) -> usize {
    thread::scope(|scope| {
        let thread = thread::Builder::new().stack_size(STACK_BYTES);
        let handle = thread.spawn_scoped(scope, || painted(run)).expect("a thread");
        handle.join().expect("the call ends")
    })
}

#[inline(never)]
fn painted(run: impl FnOnce()) -> usize {
    let here = [0u64; 1];
    let top = here.as_ptr() as usize;
    let (from, to) = paint();
    call(run);
    top - lowest_used(from, to)
}

/// A frame below the painter's caller, as the painter's own.
#[inline(never)]
fn call(run: impl FnOnce()) {
    run()
}

/// Paints the stack below its own frame, which `run` then uses.
#[inline(never)]
fn paint() -> (usize, usize) {
    let here = [0u64; 1];
    // its own frame and what the processor may keep below it
    let to = here.as_ptr() as usize - 64 * WORD;
    let from = to - PAINTED_BYTES;
    for address in (from..to).step_by(WORD) {
        // the thread's stack is larger than what is painted, and nothing is kept there yet
        unsafe { (address as *mut u64).write_volatile(PAINT) };
    }
    (from, to)
}

#[inline(never)]
fn lowest_used(from: usize, to: usize) -> usize {
    let is_paint = |address: usize| unsafe { (address as *const u64).read_volatile() } == PAINT;
    let lowest = (from..to).step_by(WORD).find(|&address| !is_paint(address));
    assert_ne!(lowest, Some(from), "more stack than was painted");
    lowest.unwrap_or(to)
}
