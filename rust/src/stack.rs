//! Stack for the call. It goes through a chain of blocks that are no join points by recursion, one
//! level per block, so the stack that it takes grows with the number of blocks.

use std::thread;

/// Up to so many blocks the call runs on the caller's thread. It then takes at most 456 KB of its
/// stack.
pub const CALLERS_BLOCKS: usize = 32;

/// The stack of the thread for more blocks, in bytes: over twice the 1,696 KB that the deepest chain
/// takes, 256 blocks with a state of 511 nodes (`cargo run --release -p compare --bin stack` measures
/// it).
pub const STACK: usize = 5 << 20;

/// Runs the call where there is enough stack for so many blocks.
///
/// # Panics
///
/// If there are over [`CALLERS_BLOCKS`] and no thread can be had.
pub fn run<A: Send>(blocks: usize, call: impl FnOnce() -> A + Send) -> A {
    if blocks <= CALLERS_BLOCKS {
        return call();
    }
    thread::scope(|scope| {
        let thread = thread::Builder::new().stack_size(STACK).spawn_scoped(scope, call);
        thread.expect("a thread with 5 MB of stack").join().expect("the call doesn't panic")
    })
}
