//! The whole answers of docs/mathml-examples.txt, and the buffers of the call.

use asciimath::{Refusal, calls, mathml};

/// A text, and below it four blanks and its MathML or `refused=` and a number; `\x..` is a byte.
const EXAMPLES: &str = include_str!("../../../docs/mathml-examples.txt");

fn unescaped(line: &str) -> String {
    let mut text = String::new();
    let mut rest = line;
    while let Some(at) = rest.find("\\x") {
        text.push_str(&rest[..at]);
        let byte = u8::from_str_radix(&rest[at + 2..at + 4], 16).unwrap();
        text.push(char::from(byte));
        rest = &rest[at + 4..];
    }
    text.push_str(rest);
    if text.starts_with('"') {
        text = text.replace("\\t", "\t");
    }
    text
}

#[test]
fn the_examples() {
    let lines: Vec<&str> = EXAMPLES.lines().skip(1).collect();
    let mut seen = 0;
    for pair in lines.windows(2) {
        let Some(answer) = pair[1].strip_prefix("    ") else {
            continue;
        };
        let text = unescaped(pair[0]);
        match mathml(&text) {
            Ok(mathml) => assert_eq!(mathml, answer, "{text}"),
            Err(refusal) => assert_eq!(answer, format!("refused={}", refusal.number()), "{text}"),
        }
        seen += 1;
    }
    assert!(75 <= seen, "{seen}");
}

#[test]
fn a_long_text() {
    let text = format!("f{}{}", "(".repeat(127), "f".repeat(3968));
    assert_eq!(mathml(&text).unwrap().len(), 193_492);
}

#[test]
fn refused() {
    assert_eq!(mathml("bb x"), Err(Refusal::NO_MATHML));
    assert_eq!(mathml("é"), Err(Refusal::NOT_ASCII));
}

#[test]
fn one_byte_short() {
    let (mut table, mut work, mut tree) = ([0; 3], [0; 4], [0; 64]);
    let need = mathml("x").unwrap().len();
    for len in [need - 1, need, need + 1] {
        let mut out = vec![7; len];
        let mut answer = [9; 3];
        let code = calls::mathml(
            b"x",
            &mut table,
            &mut work,
            &mut tree,
            &mut out,
            &mut answer,
        );
        if len < need {
            assert_eq!((code, answer), (12, [9; 3]));
            assert!(out.iter().all(|&byte| byte == 7));
        } else {
            assert_eq!((code, answer[0]), (0, need as u64));
            assert!(out[need..].iter().all(|&byte| byte == 7));
        }
    }
}
