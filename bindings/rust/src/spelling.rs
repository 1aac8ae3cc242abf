use crate::{Token, calls};

/// A row of the spelling table, as it stands in a text
#[derive(Debug, Clone, Copy, PartialEq, Eq, Hash)]
pub struct Spelling {
    /// The spelling's bytes
    pub len: usize,
    /// The token that it is read as
    pub token: Token,
    /// Its row in the table of 429 spellings sorted by bytes, from 0
    pub row: usize,
}

/// The longest spelling that begins a text at a place, if one does
///
/// The place is counted in bytes, and any will do. The row is what a display form hangs on: for the part
/// of a text that a token stands for, `lookup(part, 0)` has its row, unless the token is a Number, Text,
/// Ident, Operator or Space, which are read by no spelling.
///
/// ```
/// use asciimath::{Spelling, Token, lookup};
///
/// let found = Spelling { len: 4, token: Token::Unary, row: 355 };
/// assert_eq!(lookup("2sqrt x", 1), Some(found));
/// assert_eq!(lookup("2sqrt x", 0), None);
/// ```
#[must_use]
pub fn lookup(text: &str, at: usize) -> Option<Spelling> {
    let mut answer = [0; 3];
    calls::lookup(text.as_bytes(), at, &mut answer);
    match answer {
        [0, ..] => None,
        [len, kind, row] => Some(Spelling {
            len: usize::try_from(len).ok()?,
            token: Token::of_number(u32::try_from(kind).ok()?)?,
            row: usize::try_from(row).ok()?,
        }),
    }
}
