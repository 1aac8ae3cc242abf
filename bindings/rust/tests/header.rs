//! The numbers of include/asciimath.h beside those of the definition, of the calls and of this crate.

use asciimath::{Refusal, Token, calls};
use std::collections::BTreeMap;

const HEADER: &str = include_str!("../../../include/asciimath.h");
const KINDS: &str = include_str!("../../../crates/tokens/specs/Kinds.antt");
const WORDS: &str = include_str!("../../../crates/tree/specs/Words.antt");

type Numbers = BTreeMap<String, u32>;

/// The constants of an enum of the header, without the prefix of their group. Each has to have that
/// prefix, and to say its number.
fn constants(tag: &str, group: &str) -> Numbers {
    let (_, rest) = HEADER.split_once(&format!("enum {tag} {{")).unwrap();
    let (body, _) = rest.split_once("};").unwrap();
    let uncommented = |part: &str| part.split("*/").last().unwrap().to_owned();
    let body: String = body.split("/*").map(uncommented).collect();
    let mut numbers = Numbers::new();
    for line in body.split(',').map(str::trim) {
        let named = line.strip_prefix(&format!("ASCIIMATH_{group}_"));
        let constant = named.and_then(|named| named.split_once(" = "));
        let (name, number) = constant.unwrap_or_else(|| panic!("{line}"));
        let other = numbers.insert(name.to_owned(), number.parse().unwrap());
        assert_eq!(other, None, "{line}");
    }
    numbers
}

/// The equations `FUNCTION CASE … = NUMBER …` of a definition, by the case's name in capitals.
fn defined(definition: &str, function: &str) -> Numbers {
    let equation = |line: &str| {
        let (left, right) = line.strip_prefix(function)?.split_once(" = ")?;
        let case = left.trim_start_matches([' ', '(']);
        let case = case.split([' ', ')']).next()?;
        let name = case.rsplit('.').next()?;
        let number = right.split(' ').next()?.parse().ok()?;
        Some((capitals(name), number))
    };
    definition.lines().filter_map(equation).collect()
}

/// `OPEN_BRACKET` for `OpenBracket`.
fn capitals(name: &str) -> String {
    let mut capitals = String::new();
    for char in name.chars() {
        if char.is_ascii_uppercase() && !capitals.is_empty() {
            capitals.push('_');
        }
        capitals.push(char.to_ascii_uppercase());
    }
    capitals
}

#[test]
fn tokens_and_classes() {
    let tokens = constants("asciimath_token", "TOKEN");
    let classes = constants("asciimath_class", "CLASS");
    assert_eq!((tokens.len(), classes.len()), (17, 8));
    assert_eq!(tokens, defined(KINDS, "number_of"));
    assert_eq!(classes, defined(KINDS, "class_number"));
    for token in Token::ALL {
        let number = match token {
            Token::Symbol(class) => tokens["SYMBOL"] + classes[&capitals(&format!("{class:?}"))],
            _ => tokens[&capitals(&format!("{token:?}"))],
        };
        assert_eq!(token.number(), number, "{token:?}");
    }
}

#[test]
fn nodes_and_scripts() {
    let mut nodes = defined(WORDS, "atom_kind");
    nodes.extend(defined(WORDS, "prefix_kind"));
    nodes.extend(defined(WORDS, "head_words"));
    // no reading has a fraction but as an item, which the word in front tells
    assert_eq!(nodes.remove("FRAC"), Some(18));
    for (short, long) in [("SSIGNED", "SIMPLE_SIGNED"), ("SFUNC", "SIMPLE_FUNC")] {
        let number = nodes.remove(short).unwrap();
        nodes.insert(long.to_owned(), number);
    }
    assert_eq!(nodes.len(), 18);
    assert_eq!(constants("asciimath_node", "NODE"), nodes);

    let scripts = defined(WORDS, "script_number");
    assert_eq!(scripts.len(), 4);
    assert_eq!(constants("asciimath_script", "SCRIPT"), scripts);
}

/// Each refusal with this crate's number for it and the one that a call answers.
macro_rules! refusals {
    ($($name:ident: $call:expr,)*) => {
        [$((stringify!($name), Refusal::$name.number(), $call)),*]
    };
}

#[test]
fn refusals() {
    let list = |text: &[u8], table: &[u32], count| {
        calls::parse_tokens(text, table, count, &mut [0; 6], &mut [0; 96], &mut [])
    };
    let text = |work: &mut [u32], tree: &mut [u32]| {
        let mut table = [0; 3];
        calls::parse(b"x", &mut table, work, tree, &mut [])
    };
    type Writes = fn(&[u8], &mut [u32], &mut [u32], &mut [u32], &mut [u8], &mut [u64]) -> u32;
    let write = |call: Writes, text: &[u8]| {
        let (table, work, tree) = (&mut [0; 9], &mut [0; 6], &mut [0; 96]);
        call(text, table, work, tree, &mut [], &mut [])
    };
    let made = refusals! {
        LONG_TEXT: calls::count(&[b'x'; 4097], &mut []),
        NOT_ASCII: calls::count(&[128], &mut []),
        TOKEN_COUNT: list(b"x", &[0, 1], 1),
        TOKEN_KIND: list(b"x", &[0, 1, 24], 1),
        TOKEN_SPAN: list(b"x", &[0, 2, 6], 1),
        DOUBLE_SPACE: list(b"  ", &[0, 1, 23, 1, 1, 23], 2),
        SHORT_TABLE: calls::tokens(b"x", &mut [0; 2], &mut []),
        SHORT_WORK: text(&mut [0; 3], &mut [0; 64]),
        SHORT_TREE: text(&mut [0; 4], &mut [0; 63]),
        SHORT_PRINT: write(calls::print, b"x"),
        NO_MATHML: write(calls::mathml, b"bb x"),
        SHORT_MATHML: write(calls::mathml, b"x"),
    };
    for (name, ours, answered) in made {
        assert_eq!(ours, answered, "{name}");
    }
    let answered = made.map(|(name, _, answered)| (name.to_owned(), answered));
    let header = constants("asciimath_refusal", "REFUSED");
    assert_eq!(header, Numbers::from(answered));
}

/// The number of a macro without parameters.
fn number(name: &str) -> u32 {
    let line = |line: &str| line.strip_prefix(&format!("#define {name} "))?.parse().ok();
    HEADER.lines().find_map(line).unwrap()
}

#[test]
fn the_longest_text() {
    let mut text = vec![b'x'; number("ASCIIMATH_MAX") as usize];
    assert_eq!(calls::count(&text, &mut []), 0);
    text.push(b'x');
    assert_eq!(calls::count(&text, &mut []), Refusal::LONG_TEXT.number());
}

#[test]
fn one_version() {
    let part = |part| number(&format!("ASCIIMATH_VERSION_{part}"));
    let [major, minor, patch] = ["MAJOR", "MINOR", "PATCH"].map(part);
    let version = format!("{major}.{minor}.{patch}");
    assert_eq!(version, env!("CARGO_PKG_VERSION"));
    // so that versions compare as their numbers do
    assert!(minor < 100 && patch < 100);
}
