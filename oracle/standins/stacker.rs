//! In place of the crate stacker: how much of the thread's stack is left, measured from where the thread began.
//!
//! `as_func`, `as_service`, `trace_type` and `is_empty` ask at each step, so this is also where a question is stopped that
//! would not end (a method ring) or not soon (a ladder): when the steps granted to it are used up, it is unwound with
//! `OutOfSteps`.

use std::cell::Cell;

thread_local! {
    static STACK: Cell<(usize, usize)> = const { Cell::new((0, 0)) };
    static STEPS: Cell<u64> = const { Cell::new(0) };
}

pub struct OutOfSteps;

fn here() -> usize {
    let place = 0u8;
    std::hint::black_box(&place) as *const u8 as usize
}

/// To be called at the beginning of a thread with so large a stack.
pub fn begin(size: usize) {
    STACK.set((here(), size));
}

pub fn grant(steps: u64) {
    STEPS.set(steps);
}

pub fn remaining_stack() -> Option<usize> {
    match STEPS.get() {
        0 => std::panic::resume_unwind(Box::new(OutOfSteps)),
        steps => STEPS.set(steps - 1),
    }
    let (top, size) = STACK.get();
    Some(size.saturating_sub(top.saturating_sub(here())))
}
