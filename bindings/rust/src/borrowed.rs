//! Trees that hold parts of the text, as asciimath-parser's do
//!
//! The names are those of asciimath-parser, with its lifetimes: code for it goes over by
//! `use asciimath::borrowed as asciimath_parser`, but for the refusals, and for the text that
//! `parse_tokens` is given too.
//!
//! ```
//! use asciimath::borrowed::{parse, tree::{Intermediate, ScriptFunc, Simple}};
//!
//! fn ident<'a>(item: &Intermediate<'a>) -> Option<&'a str> {
//!     let Intermediate::ScriptFunc(ScriptFunc::Simple(part)) = item else { return None };
//!     let Simple::Ident(name) = part.simple else { return None };
//!     Some(name)
//! }
//! assert_eq!(parse("x y")?.iter().find_map(ident), Some("x"));
//! # Ok::<(), asciimath::Refusal>(())
//! ```

use crate::{Reader, Refusal};
pub use crate::{SymbolClass, Token, Tokenizer};

/// The tree of a text
///
/// # Errors
/// As [`parse`](crate::parse).
pub fn parse(text: &str) -> Result<tree::Expression<'_>, Refusal> {
    let reading = Reader::with_own(|reader| reader.read_borrowed(text));
    Ok(reading?.tree)
}

/// The tree of a token list, each token with its part of the text
///
/// # Errors
/// As [`parse_tokens`](crate::parse_tokens).
pub fn parse_tokens<'a, 'b>(
    text: &'a str,
    tokens: impl IntoIterator<Item = (&'b str, Token)>,
) -> Result<tree::Expression<'a>, Refusal> {
    let reading = Reader::with_own(|reader| reader.read_tokens_borrowed(text, tokens));
    Ok(reading?.tree)
}

pub mod tree {
    //! The tree, with parts of the text as `&str`; the types are those of [`crate::tree`]

    macro_rules! borrowed {
        ($($name:ident)*) => {
            $(
                pub type $name<'a> = crate::tree::$name<&'a str>;
            )*
        };
    }

    borrowed! {
        Expression Frac Func Group Intermediate Matrix Script ScriptFunc Signed Simple SimpleBinary
        SimpleFunc SimpleScript SimpleSigned SimpleUnary Symbol
    }
}
