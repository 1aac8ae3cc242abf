//! The counter of takes, added to parse.rs in both places where the position moves over a token.

use std::cell::Cell;

thread_local! {
    static TAKES: Cell<u64> = const { Cell::new(0) };
}

pub fn add() {
    TAKES.set(TAKES.get() + 1);
}

/// The takes since the last call.
pub fn since_last() -> u64 {
    TAKES.replace(0)
}
