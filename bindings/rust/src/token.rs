use crate::{Reader, Refusal};
use std::iter::FusedIterator;

/// A parsed token label
#[derive(Debug, Clone, Copy, PartialEq, Eq, Hash)]
pub enum Token {
    /// The `/` of a fraction
    Frac,
    /// The `^` of a superscript
    Super,
    /// The `_` of a subscript
    Sub,
    /// The `,` between the cells and rows of a matrix
    Sep,
    /// A number
    Number,
    /// Quoted text
    Text,
    /// A raw identifier
    Ident,
    /// Anything else that is no letter, like `?`
    Operator,
    /// A defined symbol, with its class
    Symbol(SymbolClass),
    /// A sign like `-`, which joins the operands around it or binds the one after it
    Sign,
    /// A function like `sin`
    Function,
    /// A unary operation like `sqrt`
    Unary,
    /// A binary operation like `root`
    Binary,
    /// An opening bracket
    OpenBracket,
    /// A closing bracket
    CloseBracket,
    /// A bracket that can either open or close, like `|`
    OpenCloseBracket,
    /// Blanks between other tokens
    Space,
}

/// What a defined symbol is, which is what decides the space around it
#[derive(Debug, Clone, Copy, PartialEq, Eq, Hash)]
pub enum SymbolClass {
    /// A symbol written as its own glyph, like `alpha`
    Glyph,
    /// A symbol written as a run of letters, like `dx`
    Name,
    /// An operator joining the operands on either side of it, like `=`
    Joining,
    /// A joining operator written as a run of letters, like `mod`
    JoiningName,
    /// An operator wanting the operand after it, like `sum`
    Leading,
    /// A leading operator written as a run of letters, like `lim`
    LeadingName,
    /// Space written as a symbol, like `quad`
    Space,
    /// The separator `,` outside a matrix
    Separator,
}

impl SymbolClass {
    /// Whether the symbol is written as a run of letters rather than its own glyph
    #[must_use]
    pub const fn is_name(self) -> bool {
        matches!(
            self,
            SymbolClass::Name | SymbolClass::JoiningName | SymbolClass::LeadingName
        )
    }

    /// Whether the symbol joins the operands on either side of it
    #[must_use]
    pub const fn joins_operands(self) -> bool {
        matches!(self, SymbolClass::Joining | SymbolClass::JoiningName)
    }

    /// Whether the symbol wants the operand after it
    #[must_use]
    pub const fn takes_operand(self) -> bool {
        matches!(self, SymbolClass::Leading | SymbolClass::LeadingName)
    }
}

/// Gives each token its number in a token table, in order from 0.
macro_rules! numbers {
    ($($number:literal $name:ident$(($class:ident))?,)*) => {
        impl Token {
            /// The tokens in the order of their numbers in a token table
            pub const ALL: [Token; 24] = [$(Token::$name$((SymbolClass::$class))?),*];

            /// The token's number in a token table
            #[must_use]
            pub const fn number(self) -> u32 {
                match self {
                    $(Token::$name$((SymbolClass::$class))? => $number,)*
                }
            }
        }
    };
}

numbers! {
    0 Frac,
    1 Super,
    2 Sub,
    3 Sep,
    4 Number,
    5 Text,
    6 Ident,
    7 Operator,
    8 Symbol(Glyph),
    9 Symbol(Name),
    10 Symbol(Joining),
    11 Symbol(JoiningName),
    12 Symbol(Leading),
    13 Symbol(LeadingName),
    14 Symbol(Space),
    15 Symbol(Separator),
    16 Sign,
    17 Function,
    18 Unary,
    19 Binary,
    20 OpenBracket,
    21 CloseBracket,
    22 OpenCloseBracket,
    23 Space,
}

impl Token {
    /// The token of a number in a token table
    #[must_use]
    pub fn of_number(number: u32) -> Option<Token> {
        Token::ALL.get(number as usize).copied()
    }
}

/// The tokens of a text, each with its part of the text
///
/// ```
/// use asciimath::{Token, Tokenizer};
/// let tokens: Vec<_> = Tokenizer::new("ab")?.collect();
/// assert_eq!(tokens, [("a", Token::Ident), ("b", Token::Ident)]);
/// # Ok::<(), asciimath::Refusal>(())
/// ```
#[derive(Debug, Clone)]
pub struct Tokenizer<'a> {
    text: &'a str,
    /// Start, length and kind of each token
    tokens: std::vec::IntoIter<[u32; 3]>,
}

impl<'a> Tokenizer<'a> {
    /// The tokens of a text
    ///
    /// # Errors
    /// A text of more than 4,096 bytes, or one that is not ASCII, is refused.
    pub fn new(text: &'a str) -> Result<Self, Refusal> {
        Reader::with_own(|reader| reader.tokenizer(text))
    }

    /// Of the words of the text's tokens
    pub(crate) fn of_table(text: &'a str, table: &[[u32; 3]]) -> Self {
        Tokenizer {
            text,
            tokens: Vec::from(table).into_iter(),
        }
    }
}

impl<'a> Iterator for Tokenizer<'a> {
    type Item = (&'a str, Token);

    #[inline]
    fn next(&mut self) -> Option<Self::Item> {
        let [start, len, kind] = self.tokens.next()?;
        let part = &self.text[start as usize..][..len as usize];
        Some((part, Token::ALL[kind as usize]))
    }

    fn size_hint(&self) -> (usize, Option<usize>) {
        self.tokens.size_hint()
    }
}

impl ExactSizeIterator for Tokenizer<'_> {}
impl FusedIterator for Tokenizer<'_> {}
