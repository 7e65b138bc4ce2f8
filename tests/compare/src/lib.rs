//! Makes the same calls on two engines and compares every answer and every buffer in full.

#![deny(unsafe_code)]

pub mod compare;
#[cfg(feature = "engine")]
pub mod linked;
pub mod lists;
pub mod met;
pub mod orders;
pub mod pieces;
pub mod ran;
pub mod searched;
pub mod shrink;
pub mod specimens;
pub mod texts;

/// The stack of the threads that make calls. More than any call needs.
pub const STACK: usize = 64 << 20;

/// Runs a piece of work on a thread with enough stack for every call.
pub fn with_stack<T: Send + 'static>(work: impl FnOnce() -> T + Send + 'static) -> T {
    let thread = std::thread::Builder::new().stack_size(STACK).spawn(work).expect("a thread");
    match thread.join() {
        Ok(result) => result,
        Err(panic) => std::panic::resume_unwind(panic),
    }
}
