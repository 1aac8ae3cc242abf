use std::fmt;

/// Why the library turned a text, a token list or a buffer back, by its number
#[derive(Debug, Clone, Copy, PartialEq, Eq, Hash)]
pub struct Refusal(u32);

impl Refusal {
    /// 1: the text is longer than 4,096 bytes
    pub const LONG_TEXT: Refusal = Refusal(1);
    /// 2: a byte of the text is 128 or more
    pub const NOT_ASCII: Refusal = Refusal(2);
    /// 3: more than 4,096 tokens, or a table with fewer than three words for each
    pub const TOKEN_COUNT: Refusal = Refusal(3);
    /// 4: a token's kind is above 23
    pub const TOKEN_KIND: Refusal = Refusal(4);
    /// 5: a token's span passes the text's end
    pub const TOKEN_SPAN: Refusal = Refusal(5);
    /// 6: a Space token directly after a Space of length 1 or more
    pub const DOUBLE_SPACE: Refusal = Refusal(6);
    /// 7: the token table is too short
    pub const SHORT_TABLE: Refusal = Refusal(7);
    /// 8: the work buffer, or the buffer of closers, is too short
    pub const SHORT_WORK: Refusal = Refusal(8);
    /// 9: the tree buffer is too short
    pub const SHORT_TREE: Refusal = Refusal(9);
    /// 10: the print buffer is too short
    pub const SHORT_PRINT: Refusal = Refusal(10);
    /// 11: the tree holds what has no MathML here: `id`, `class`, `color`, a font command, a column
    /// line at a matrix's edge or a second at one place, a control byte
    pub const NO_MATHML: Refusal = Refusal(11);
    /// 12: the output buffer is shorter than the MathML
    pub const SHORT_MATHML: Refusal = Refusal(12);

    /// The refusal's number
    #[must_use]
    pub const fn number(self) -> u32 {
        self.0
    }

    /// What a call's code says: 0 is no refusal
    pub(crate) const fn of_code(code: u32) -> Result<(), Refusal> {
        match code {
            0 => Ok(()),
            number => Err(Refusal(number)),
        }
    }
}

impl fmt::Display for Refusal {
    fn fmt(&self, f: &mut fmt::Formatter<'_>) -> fmt::Result {
        let reason = match *self {
            Refusal::LONG_TEXT => "the text is longer than 4,096 bytes",
            Refusal::NOT_ASCII => "a byte of the text is 128 or more",
            Refusal::TOKEN_COUNT => "more than 4,096 tokens",
            Refusal::TOKEN_KIND => "a token's kind is above 23",
            Refusal::TOKEN_SPAN => "a token's span passes the text's end",
            Refusal::DOUBLE_SPACE => "a Space token directly after a Space that is not empty",
            Refusal::SHORT_TABLE => "the token table is too short",
            Refusal::SHORT_WORK => "the work buffer or the buffer of closers is too short",
            Refusal::SHORT_TREE => "the tree buffer is too short",
            Refusal::SHORT_PRINT => "the print buffer is too short",
            Refusal::NO_MATHML => "the tree holds what has no MathML here",
            Refusal::SHORT_MATHML => "the output buffer is too short",
            Refusal(_) => "unknown",
        };
        write!(f, "refused ({}): {reason}", self.0)
    }
}

impl std::error::Error for Refusal {}
