//! The proved AsciiMath reader, for Rust
//!
//! The reading itself is done by `libasciimath.a`, each of whose calls is proved to equal a
//! definition; this crate lends it buffers and turns its words into a tree with the names of the
//! Rust crate asciimath-parser.
//!
//! ```
//! use asciimath::tree::{Intermediate, Simple, ScriptFunc};
//!
//! let tree = asciimath::parse("[[1, 2], [3, 4]]")?;
//! let [Intermediate::ScriptFunc(ScriptFunc::Simple(only))] = &tree[..] else { panic!() };
//! let Simple::Matrix(matrix) = &only.simple else { panic!() };
//! assert_eq!((matrix.num_cols(), matrix.num_rows()), (2, 2));
//! # Ok::<(), asciimath::Refusal>(())
//! ```

pub mod borrowed;
pub mod calls;
mod decode;
mod part;
mod reader;
mod refusal;
mod spelling;
mod token;
pub mod tree;

pub use decode::decode;
pub use part::Part;
pub use reader::{Pair, Reader, Reading};
pub use refusal::Refusal;
pub use spelling::{Spelling, lookup};
pub use token::{SymbolClass, Token, Tokenizer};
use tree::Expression;

/// The tree of a text
///
/// # Errors
/// A text of more than 4,096 bytes, or one that is not ASCII, is refused.
pub fn parse(text: &str) -> Result<Expression, Refusal> {
    Ok(read(text)?.tree)
}

/// The tree of a token list, each token with its part of the text
///
/// A part is known by its address: a copy of it is refused, as a span that passes the text's end.
///
/// # Errors
/// The text is refused as in [`parse`]; a list of more than 4,096 tokens, a part that is not of the
/// text, and a Space directly after a Space that is not empty are refused.
pub fn parse_tokens<'a>(
    text: &str,
    tokens: impl IntoIterator<Item = (&'a str, Token)>,
) -> Result<Expression, Refusal> {
    Ok(read_tokens(text, tokens)?.tree)
}

/// The tree of a text, with the tokens, takes and blank
///
/// # Errors
/// As [`parse`].
pub fn read(text: &str) -> Result<Reading, Refusal> {
    Reader::with_own(|reader| reader.read(text))
}

/// The tree of a token list as in [`parse_tokens`], with the tokens, takes and blank
///
/// # Errors
/// As [`parse_tokens`].
pub fn read_tokens<'a>(
    text: &str,
    tokens: impl IntoIterator<Item = (&'a str, Token)>,
) -> Result<Reading, Refusal> {
    Reader::with_own(|reader| reader.read_tokens(text, tokens))
}

/// For each token of a text other than Space, the place of its closer, if it has one
///
/// A token's closer is the token that ends the group, matrix or matrix row that it opens. Places are
/// counted from 0 among the tokens other than Space. A closer stands behind its opener, is no other's
/// and opens nothing, and pairs never cross.
///
/// ```
/// let closers = asciimath::closers("(|x|, y")?;
/// assert_eq!(closers, [None, Some(3), None, None, None, None]);
/// # Ok::<(), asciimath::Refusal>(())
/// ```
///
/// # Errors
/// As [`parse`].
pub fn closers(text: &str) -> Result<Vec<Option<usize>>, Refusal> {
    Reader::with_own(|reader| reader.closers(text))
}

/// The places of the closers as in [`closers`], for a token list as in [`parse_tokens`]
///
/// ```
/// use asciimath::{Tokenizer, closers_tokens};
///
/// let text = "( a )";
/// // three tokens other than Space
/// let closers = closers_tokens(text, Tokenizer::new(text)?)?;
/// assert_eq!(closers, [Some(2), None, None]);
/// # Ok::<(), asciimath::Refusal>(())
/// ```
///
/// # Errors
/// As [`parse_tokens`].
pub fn closers_tokens<'a>(
    text: &str,
    tokens: impl IntoIterator<Item = (&'a str, Token)>,
) -> Result<Vec<Option<usize>>, Refusal> {
    Reader::with_own(|reader| reader.closers_tokens(text, tokens))
}

/// The spans of each opener and its closer in a text, in the order of the openers
///
/// The pairs are those of [`closers`], for a box that lights up a bracket's partner.
///
/// ```
/// let pairs = asciimath::pairs("f(langle x rangle")?;
/// assert_eq!(pairs, [(2..8, 11..17)]);
/// # Ok::<(), asciimath::Refusal>(())
/// ```
///
/// # Errors
/// As [`parse`].
pub fn pairs(text: &str) -> Result<Vec<Pair>, Refusal> {
    Reader::with_own(|reader| reader.pairs(text))
}

/// The printed tree of a text, a line for each node
///
/// # Errors
/// As [`parse`].
pub fn print(text: &str) -> Result<String, Refusal> {
    Reader::with_own(|reader| reader.print(text))
}

/// The MathML of a text: one `math` element, for a browser or a typesetter
///
/// ```
/// let mathml = asciimath::mathml("x^2")?;
/// assert!(mathml.ends_with("<msup><mi>x</mi><mn>2</mn></msup></math>"));
/// # Ok::<(), asciimath::Refusal>(())
/// ```
///
/// # Errors
/// As [`parse`], and [`Refusal::NO_MATHML`] for a tree that holds `id`, `class`, `color`, a font
/// command, a column line at a matrix's edge or a second at one place, or a control byte.
pub fn mathml(text: &str) -> Result<String, Refusal> {
    Reader::with_own(|reader| reader.mathml(text))
}
