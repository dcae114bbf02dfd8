//! Calls that read a profile, which take more stack than a thread may have.
use crate::error::Cause;
use std::thread::Builder;

/// Twice the stack that abi/README.md asks for.
const STACK: usize = 8 << 20;

/// Makes a call with enough stack for any profile.
pub(crate) fn with_stack<R: Send>(call: impl FnOnce() -> R + Send) -> Result<R, Cause> {
    with_stack_of(STACK, call)
}

fn with_stack_of<R: Send>(size: usize, call: impl FnOnce() -> R + Send) -> Result<R, Cause> {
    // SAFETY: the thread is joined before this returns, so it can use what the call borrows.
    let thread = unsafe { Builder::new().stack_size(size).spawn_unchecked(call) };
    // The system's error for want of memory is that for a file that another till has.
    let thread = thread.map_err(|_| Cause::NoMemory)?;
    thread.join().or_else(|panic| std::panic::resume_unwind(panic))
}

#[cfg(test)]
mod tests {
    use super::*;

    fn goes_down(left: usize) -> usize {
        let room = std::hint::black_box([left; 512]);
        room[7] + if left == 0 { 0 } else { goes_down(left - 1) }
    }

    #[test]
    fn a_call_has_more_stack_than_its_thread() {
        let calls = || with_stack(|| goes_down(700)).is_ok_and(|sum| sum == 700 * 701 / 2);
        assert!(Builder::new().stack_size(128 << 10).spawn(calls).unwrap().join().unwrap());
    }

    #[test]
    fn a_stack_may_find_no_memory() {
        assert!(matches!(with_stack_of(1 << 46, || ()), Err(Cause::NoMemory)));
    }
}
