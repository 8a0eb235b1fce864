//! Panics of the Rust: caught where it is asked, silent there and nowhere else.

use std::cell::Cell;
use std::panic::{catch_unwind, set_hook, take_hook, AssertUnwindSafe};

thread_local! {
    static ASKING: Cell<bool> = const { Cell::new(false) };
}

/// To be called once, before the first question.
pub fn silence() {
    let loud = take_hook();
    set_hook(Box::new(move |panic| {
        if !ASKING.get() {
            loud(panic);
        }
    }));
}

/// What `ask` gives, or None where it panics.
pub fn caught<T>(ask: impl FnOnce() -> T) -> Option<T> {
    ASKING.set(true);
    let answer = catch_unwind(AssertUnwindSafe(ask));
    ASKING.set(false);
    answer.ok()
}
