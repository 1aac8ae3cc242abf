//! Answers of the Rust original, to compare with.
//!
//!     oracle tokens|tree|list|closers|list_closers < lines > answers
//!
//! - tokens: each line is a text in lower-case hex; its answer is one line of `start,len,kind`.
//! - tree: the same lines; the answer is the printed tree of document 01 and a line `--`.
//! - list: each line is a text in hex and a token list, `HEX start,len,kind start,len,kind ..`;
//!   the answer is the printed tree of that list, or `panic`, and a line `--`.
//! - closers, list_closers: the lines of tree and of list; the answer is one line, for each token
//!   other than Space the place of its closer among them, or their number for none; or `panic`.

mod kinds;
mod print;
mod reading;

use asciimath_parser::{Token, Tokenizer, tree};
use kinds::{TOKENS, kind, start};
use reading::reading;
use std::io::{BufRead, Write, stdin, stdout};
use std::panic::{UnwindSafe, catch_unwind, set_hook};

/// A text of a line's hex digits, in a buffer with a byte to spare, so that the address of an
/// empty text or of its end is that of no other text.
fn text_of(hex: &str) -> String {
    assert!(hex.len() % 2 == 0, "half a byte: {hex}");
    let mut text = String::with_capacity(hex.len() / 2 + 1);
    for at in (0..hex.len()).step_by(2) {
        let byte = u8::from_str_radix(&hex[at..at + 2], 16).expect("a hex byte");
        assert!(byte.is_ascii(), "not ASCII: {hex}");
        text.push(byte.into());
    }
    text
}

/// A token of its `start,len,kind`.
fn token_of<'a>(text: &'a str, triple: &str) -> (&'a str, Token) {
    let numbers: Vec<usize> = triple
        .split(',')
        .map(|n| n.parse().expect("a number"))
        .collect();
    let [start, len, kind] = numbers[..] else {
        panic!("not start,len,kind: {triple}")
    };
    (&text[start..start + len], TOKENS[kind])
}

fn tokens_line(text: &str, tokens: &[(&str, Token)]) -> String {
    let triples: Vec<String> = tokens
        .iter()
        .map(|&(part, token)| format!("{},{},{}", start(text, part), part.len(), kind(token)))
        .collect();
    triples.join(" ") + "\n"
}

fn tree_lines(text: &str, tokens: &[(&str, Token)]) -> String {
    let read = reading(tokens);
    print::printed(text, tokens.len(), read.takes, &read.root)
}

fn closers_line(tokens: &[(&str, Token)]) -> String {
    let closers = reading(tokens).closers;
    let places: Vec<_> = closers.iter().map(usize::to_string).collect();
    places.join(" ") + "\n"
}

/// The answer to a token list, or `panic` for two Space tokens in a row. Any other panic is shown
/// with its message.
fn list_lines(answer: impl FnOnce() -> String + UnwindSafe) -> String {
    set_hook(Box::new(|_| ()));
    let lines = catch_unwind(answer).unwrap_or_else(|panic| {
        let message = panic.downcast_ref::<&str>().map(|s| s.to_string());
        match message.or_else(|| panic.downcast_ref::<String>().cloned()) {
            Some(message) if message == "two space tokens in a row" => "panic\n".into(),
            message => format!("panic: {message:?}\n"),
        }
    });
    let _ = std::panic::take_hook();
    lines
}

fn answer(mode: &str, line: &str) -> String {
    let mut words = line.split(' ');
    let text = text_of(words.next().unwrap_or(""));
    let own: Vec<_> = Tokenizer::new(&text).collect();
    let listed: Vec<_> = words.map(|word| token_of(&text, word)).collect();
    match mode {
        "tokens" => tokens_line(&text, &own),
        "tree" => tree_lines(&text, &own) + "--\n",
        "list" => list_lines(|| tree_lines(&text, &listed)) + "--\n",
        "closers" => closers_line(&own),
        "list_closers" => list_lines(|| closers_line(&listed)),
        _ => panic!("{MODES}"),
    }
}

const MODES: &str = "a mode is tokens, tree, list, closers or list_closers";

fn main() {
    let mode = std::env::args().nth(1).expect(MODES);
    let run = move || {
        let mut out = std::io::BufWriter::new(stdout().lock());
        for line in stdin().lock().lines() {
            out.write_all(answer(&mode, &line.unwrap()).as_bytes())
                .unwrap();
        }
        out.flush().unwrap();
    };
    // trees can be deep: room for reading, printing and dropping them
    let stack = std::thread::Builder::new().stack_size(1 << 28);
    if stack.spawn(run).unwrap().join().is_err() {
        std::process::exit(1);
    }
}
