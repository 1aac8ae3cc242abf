//! The numbers of the token kinds, as document 01 gives them.

use asciimath_parser::{SymbolClass, Token};

pub const TOKENS: [Token; 24] = [
    Token::Frac,
    Token::Super,
    Token::Sub,
    Token::Sep,
    Token::Number,
    Token::Text,
    Token::Ident,
    Token::Operator,
    Token::Symbol(SymbolClass::Glyph),
    Token::Symbol(SymbolClass::Name),
    Token::Symbol(SymbolClass::Joining),
    Token::Symbol(SymbolClass::JoiningName),
    Token::Symbol(SymbolClass::Leading),
    Token::Symbol(SymbolClass::LeadingName),
    Token::Symbol(SymbolClass::Space),
    Token::Symbol(SymbolClass::Separator),
    Token::Sign,
    Token::Function,
    Token::Unary,
    Token::Binary,
    Token::OpenBracket,
    Token::CloseBracket,
    Token::OpenCloseBracket,
    Token::Space,
];

/// The number of a token's kind.
pub fn kind(token: Token) -> usize {
    TOKENS.iter().position(|&one| one == token).unwrap()
}

/// Where a part of a text starts. A part that is not inside it, as the bracket that stands for no
/// token, must be empty and starts at 0; an empty part at the text's end is inside.
pub fn start(text: &str, part: &str) -> usize {
    let first = text.as_ptr() as usize;
    let at = part.as_ptr() as usize;
    if (first..=first + text.len()).contains(&at) {
        at - first
    } else {
        assert!(part.is_empty());
        0
    }
}
