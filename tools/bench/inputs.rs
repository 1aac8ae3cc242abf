//! The texts and token lists that are timed.

use crate::kinds;
use asciimath_parser::{Token, Tokenizer};

pub const LONGEST: usize = 4096;

pub type Text = &'static str;

/// A text or a token list over it.
pub struct Input {
    pub text: Text,
    pub tokens: Vec<(Text, Token)>,
    /// The same tokens for the bindings.
    pub our_tokens: Vec<(Text, asciimath::Token)>,
    pub table: Vec<u32>,
    /// The tokens other than Space.
    pub others: usize,
}

impl Input {
    fn of_text(text: Text) -> Self {
        Self::of_list(text, Tokenizer::new(text).collect())
    }

    fn of_list(text: Text, tokens: Vec<(Text, Token)>) -> Self {
        let triple = |&(part, token): &(Text, Token)| {
            [kinds::start(text, part), part.len(), kinds::kind(token)].map(|word| word as u32)
        };
        let ours = |&(part, token): &(Text, Token)| {
            let kind = kinds::kind(token) as u32;
            (part, asciimath::Token::of_number(kind).expect("a kind"))
        };
        Input {
            text,
            table: tokens.iter().flat_map(triple).collect(),
            others: tokens.iter().filter(|one| one.1 != Token::Space).count(),
            our_tokens: tokens.iter().map(ours).collect(),
            tokens,
        }
    }

    pub fn bytes(&self) -> &[u8] {
        self.text.as_bytes()
    }

    /// A line as tools/compare reads it: the text in hex, and for a token list its tokens.
    pub fn line(&self, is_list: bool) -> String {
        let hex = self.text.bytes().map(|byte| format!("{byte:02x}"));
        let mut line: String = hex.collect();
        for token in self.table.chunks_exact(3).filter(|_| is_list) {
            line += &format!(" {},{},{}", token[0], token[1], token[2]);
        }
        line
    }
}

/// Texts of one kind, or token lists.
pub struct Group {
    pub name: &'static str,
    pub inputs: Vec<Input>,
    pub is_list: bool,
}

impl Group {
    fn of_texts(name: &'static str, texts: Vec<Text>) -> Self {
        Group {
            name,
            inputs: texts.into_iter().map(Input::of_text).collect(),
            is_list: false,
        }
    }

    fn of_text(name: &'static str, text: String) -> Self {
        Self::of_texts(name, vec![text.leak()])
    }

    /// As long as a text may be, of a part that is repeated.
    fn long(name: &'static str, part: &str) -> Self {
        let mut text = part.repeat(LONGEST / part.len() + 1);
        text.truncate(LONGEST);
        Self::of_text(name, text)
    }

    /// The bytes of all texts.
    pub fn bytes(&self) -> usize {
        self.inputs.iter().map(|input| input.text.len()).sum()
    }
}

/// Groups whose texts are read in one pass: the answers, which are so not read right after long
/// texts; long texts; and the worst, which take so long that they are read in fewer passes.
pub type Decks = [Vec<Group>; 3];

pub fn decks(answers: Vec<Text>) -> Decks {
    let joined = answers.join(" ") + " ";
    let short = vec![
        Group::of_texts("ordinary answers", answers),
        Group::of_text("500 bytes of answers", joined[..500].into()),
        Group::of_text("one letter", "x".into()),
    ];
    [short, long(&joined), worst()]
}

fn long(answers: &str) -> Vec<Group> {
    let printable: String = ('!'..='~').collect();
    vec![
        Group::long("long: answers", answers),
        Group::long("long: letters", "z"),
        Group::long("long: longest spelling", "twoheadrightarrowtail"),
        Group::long("long: every byte", &printable),
        Group::long("long: blanks", " "),
        Group::long("long: one number", "1"),
        Group::long("long: brackets", "("),
        Group::long("long: text commands", "text(a)"),
        Group::long("long: scripts", "a_b^c"),
        Group::long("long: fractions", "a/b"),
        Group::long("long: signs", "-a+"),
        Group::of_text("wide matrix, 2 × 500", matrix(2, 500)),
        Group::of_text("wide matrix with lines", lined_matrix(2, 250)),
        Group::of_text("tall matrix, 400 × 2", matrix(400, 2)),
    ]
}

fn worst() -> Vec<Group> {
    let inside = |parts: String| format!("-|({parts}),");
    vec![
        Group::of_text("worst: (| nested", inside("|(".repeat(126))),
        Group::long("worst: (| for 4,096 bytes", "|("),
        Group::of_text("worst: sin |", inside("|sin ".repeat(80))),
        Group::of_text("worst: [( nested", "[(".repeat(120)),
        own_bars("worst: 100 own bars", 100),
        own_bars("worst: 800 own bars", 800),
    ]
}

fn matrix(rows: usize, columns: usize) -> String {
    let row = format!("[{}]", vec!["a"; columns].join(","));
    format!("[{}]", vec![row; rows].join(","))
}

fn lined_matrix(rows: usize, pairs: usize) -> String {
    let row = format!("({},a)", vec!["a,|"; pairs].join(","));
    format!("[{}]", vec![row; rows].join(","))
}

/// The list `- | ( F F .. F ) ,`, where each F is a bar of its own text: each fails at the closing
/// bracket, in every reading of what is around it, and takes come near 5 n × n.
fn own_bars(name: &'static str, count: usize) -> Group {
    let text: Text = format!("-|(),{}", "a".repeat(count)).leak();
    let mut tokens = vec![
        (&text[..1], Token::Sign),
        (&text[1..2], Token::OpenCloseBracket),
        (&text[2..3], Token::OpenBracket),
    ];
    tokens.extend((1..=count).map(|len| (&text[5..5 + len], Token::OpenCloseBracket)));
    tokens.push((&text[3..4], Token::CloseBracket));
    tokens.push((&text[4..5], Token::Sep));
    Group {
        name,
        inputs: vec![Input::of_list(text, tokens)],
        is_list: true,
    }
}
