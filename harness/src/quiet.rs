//! Overflows of the originals, caught without a message.
use std::cell::Cell;
use std::panic::{self, AssertUnwindSafe};

thread_local! {
    static QUIET: Cell<bool> = const { Cell::new(false) };
}

/// Leaves out the message of a panic that `caught` catches.
pub fn install() {
    let print = panic::take_hook();
    panic::set_hook(Box::new(move |panic| {
        if !QUIET.get() {
            print(panic);
        }
    }));
}

/// What `call` answers, or nothing where it panics.
pub fn caught<T>(call: impl FnOnce() -> T) -> Option<T> {
    QUIET.set(true);
    let answer = panic::catch_unwind(AssertUnwindSafe(call)).ok();
    QUIET.set(false);
    answer
}
