//! The root of the crate around the four files of the original.

#[cfg(counting)]
pub mod pairs;
mod parse;
pub mod prefix_map;
#[cfg(counting)]
pub mod takes;
mod tokenizer;
pub mod tree;

pub use parse::{parse, parse_tokens};
pub use tokenizer::{
    ASCIIMATH_TOKENS, SymbolClass, Token, TokenSpelling, Tokenizer, asciimath_spellings,
};
