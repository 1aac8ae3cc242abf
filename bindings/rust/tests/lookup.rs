//! The lookup over the whole table, as the definition has it, and where no spelling fits.

use asciimath::{Spelling, Token, calls, lookup};

/// The lines `row SPELLING TOKEN ∷` of the definition, in its order.
const DEFINITION: &str = include_str!("../../../crates/lexing/specs/Spellings.antt");

/// A spelling in quotes, with `\` before a quote and itself, and what stands behind it.
fn unquoted(line: &str) -> (String, &str) {
    let mut spelling = String::new();
    let mut chars = line.char_indices();
    while let Some((at, char)) = chars.next() {
        match char {
            '"' => return (spelling, &line[at + 1..]),
            '\\' => spelling.extend(chars.next().map(|(_, char)| char)),
            _ => spelling.push(char),
        }
    }
    panic!("no quote closes {line}");
}

fn rows() -> Vec<(String, Token)> {
    let lines = DEFINITION.lines().map(str::trim);
    lines
        .filter_map(|line| line.strip_prefix("row \"").filter(|_| line.contains('∷')))
        .map(|line| {
            let (spelling, rest) = unquoted(line);
            let name = rest.split('∷').next().unwrap().trim();
            let name = match name.strip_prefix("(Symbol ") {
                Some(class) => format!("Symbol({class}"),
                None => name.to_owned(),
            };
            let named = |token: &Token| format!("{token:?}") == name;
            (
                spelling,
                *Token::ALL.iter().find(|&token| named(token)).unwrap(),
            )
        })
        .collect()
}

#[test]
fn each_row_for_its_own_spelling() {
    let rows = rows();
    assert_eq!(rows.len(), 429);
    for (row, (spelling, token)) in rows.into_iter().enumerate() {
        let found = Some(Spelling {
            len: spelling.len(),
            token,
            row,
        });
        assert_eq!(lookup(&spelling, 0), found, "{spelling}");
        // no spelling has a byte 1
        assert_eq!(
            lookup(&format!("\u{1}{spelling}\u{1}"), 1),
            found,
            "{spelling}"
        );
    }
}

#[test]
fn the_longest_of_several() {
    let row = |text, at| lookup(text, at).map(|found| (found.len, found.row));
    assert_eq!(row("!", 0), Some((1, 0)));
    assert_eq!(row("!in", 0), Some((3, 4)));
    assert_eq!(row("!i", 0), Some((1, 0)));
    assert_eq!(row("text(sin)", 0), Some((4, 373)));
    assert_eq!(row("mbox(sin)", 0), Some((4, 272)));
    assert_eq!(row("text(sin)", 4), row("(", 0));
}

#[test]
fn none_fits() {
    for text in ["", " ", "1", ".", "\"", "a", "?", "é", "\0"] {
        assert_eq!(lookup(text, 0), None, "{text}");
        assert_eq!(lookup(text, text.len()), None, "{text}");
        assert_eq!(lookup(text, usize::MAX), None, "{text}");
    }
    let mut answer = [7; 3];
    assert_eq!(calls::lookup(&[255, 33], 0, &mut answer), 0);
    assert_eq!(answer, [0, 7, 7]);
    assert_eq!(calls::lookup(&[255, 33], 1, &mut answer), 0);
    assert_eq!(answer, [1, 8, 0]);
    // as many values as there are words
    assert_eq!(calls::lookup(b"!", 0, &mut answer[..1]), 0);
    assert_eq!(calls::lookup(b"!", 0, &mut []), 0);
}
