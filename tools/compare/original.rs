//! The answers of the Rust original, and its tree in print.

use crate::kinds;
use asciimath_parser::tree;
#[path = "../oracle/print.rs"]
mod print;

use crate::reading::reading;
use asciimath_parser::{Token, Tokenizer, asciimath_spellings};
use kinds::{TOKENS, kind, start};
use std::panic::catch_unwind;
use std::sync::LazyLock;

/// What the original gives for a text or a token list.
pub struct Answer {
    /// Start, length and kind of each token.
    pub table: Vec<u32>,
    /// The tokens other than Space.
    pub others: usize,
    /// The place of each one's closer among them, or their number for none.
    pub closers: Vec<u32>,
    pub takes: u64,
    pub items: usize,
    /// The printed tree of document 01.
    pub printed: String,
}

/// The answer for an ASCII text.
pub fn text(text: &str) -> Answer {
    answer(text, &Tokenizer::new(text).collect::<Vec<_>>())
}

/// The answer for a token list whose kinds and spans are in order; none if two Space tokens follow
/// one another, where the original panics.
pub fn list(text: &str, table: &[u32]) -> Option<Answer> {
    let tokens: Vec<_> = table
        .chunks_exact(3)
        .map(|word| {
            let [start, len, kind] = [word[0], word[1], word[2]].map(|word| word as usize);
            (&text[start..start + len], TOKENS[kind])
        })
        .collect();
    let panic = match catch_unwind(|| answer(text, &tokens)) {
        Ok(answer) => return Some(answer),
        Err(panic) => panic,
    };
    match panic.downcast_ref::<&str>() {
        Some(&"two space tokens in a row") => None,
        _ => std::panic::resume_unwind(panic),
    }
}

/// The spellings of document 01, sorted by bytes, each with the number of its token.
static ROWS: LazyLock<Vec<(&[u8], usize)>> = LazyLock::new(|| {
    let ascii = asciimath_spellings().filter(|(spelling, _)| spelling.is_ascii());
    let mut rows: Vec<_> = ascii
        .map(|(spelling, token)| (spelling.as_bytes(), kind(token)))
        .collect();
    rows.sort_unstable();
    rows
});

/// Of the rows that begin the bytes at a place the longest: its length, its kind and its row. The rows
/// that begin with one byte stand together, and there are few of them: each is tried.
pub fn lookup(text: &[u8], at: usize) -> Option<[u64; 3]> {
    let rest = text.get(at..).filter(|rest| !rest.is_empty())?;
    let first = ROWS.partition_point(|row| row.0[0] < rest[0]);
    let rows = ROWS.iter().enumerate().skip(first);
    let rows = rows.take_while(|(_, row)| row.0[0] == rest[0]);
    let (row, (spelling, kind)) = rows
        .filter(|(_, row)| rest.starts_with(row.0))
        .max_by_key(|(_, row)| row.0.len())?;
    Some([spelling.len(), *kind, row].map(|value| value as u64))
}

fn answer(text: &str, tokens: &[(&str, Token)]) -> Answer {
    let read = reading(tokens);
    Answer {
        table: tokens
            .iter()
            .flat_map(|&(part, token)| [start(text, part), part.len(), kind(token)])
            .map(|word| word as u32)
            .collect(),
        others: read.closers.len(),
        closers: read.closers.iter().map(|&place| place as u32).collect(),
        takes: read.takes,
        items: read.root.len(),
        printed: print::printed(text, tokens.len(), read.takes, &read.root),
    }
}
