//! The log of pairs, an opener's entry and its closer's, added to parse.rs where it ends a row, a
//! matrix, a group or a pair of bars. Where it gives an attempt back, the log is cut to the length
//! that it had before.

use std::cell::RefCell;

thread_local! {
    static PAIRS: RefCell<Vec<(usize, usize)>> = const { RefCell::new(Vec::new()) };
}

pub fn length() -> usize {
    PAIRS.with_borrow(Vec::len)
}

pub fn cut(length: usize) {
    PAIRS.with_borrow_mut(|pairs| pairs.truncate(length));
}

/// Closers come in their order: one that does not, comes after an attempt that was not cut off.
pub fn add(opener: usize, closer: usize) {
    PAIRS.with_borrow_mut(|pairs| {
        assert!(pairs.last().is_none_or(|&(_, last)| last < closer));
        pairs.push((opener, closer));
    });
}

/// The closer of each of so many entries, or their number for none. The log is empty then.
pub fn closers(entries: usize) -> Vec<usize> {
    let mut closers = vec![entries; entries];
    for (opener, closer) in PAIRS.take() {
        assert!(opener < closer && closers[opener] == entries);
        closers[opener] = closer;
    }
    closers
}
