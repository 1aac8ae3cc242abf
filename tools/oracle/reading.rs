//! A reading by the original, with its takes and closers.

use asciimath_parser::tree::Expression;
use asciimath_parser::{Token, pairs, parse_tokens, takes};

pub struct Reading<'a> {
    pub root: Expression<'a>,
    pub takes: u64,
    /// For each token other than Space the place of its closer among them, or their number for none.
    pub closers: Vec<usize>,
}

pub fn reading<'a>(tokens: &[(&'a str, Token)]) -> Reading<'a> {
    takes::since_last();
    pairs::cut(0);
    let root = parse_tokens(tokens.iter().copied());
    let spaces = tokens.iter().filter(|(_, token)| *token == Token::Space);
    Reading {
        root,
        takes: takes::since_last(),
        closers: pairs::closers(tokens.len() - spaces.count()),
    }
}
