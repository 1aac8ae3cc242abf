//! The closers of texts and token lists, and the pairs of brackets.

use asciimath::{Reader, Refusal, Token, Tokenizer, calls, closers, closers_tokens, pairs, read};

fn tokens(text: &str) -> Vec<(&str, Token)> {
    Tokenizer::new(text).unwrap().collect()
}

/// The places of the openers, each with that of its closer.
fn closed(text: &str) -> Vec<(usize, usize)> {
    let closers = closers(text).unwrap().into_iter().enumerate();
    closers
        .filter_map(|(opener, closer)| Some((opener, closer?)))
        .collect()
}

#[test]
fn closers_of_texts() {
    assert_eq!(closers("|x|").unwrap(), [Some(2), None, None]);
    assert_eq!(closers("(a").unwrap(), [None; 2]);
    assert_eq!(closers("a)(b").unwrap(), [None; 4]);
    assert_eq!(closers("").unwrap(), []);
    assert_eq!(closers(" ").unwrap(), []);
    let matrix = closers("[[1,2],[3,4]]").unwrap();
    assert_eq!(matrix.len(), 13);
    assert_eq!(matrix[..3], [Some(12), Some(5), None]);
    for (text, right) in [
        ("[[1,2],[3,4]]", &[(0, 12), (1, 5), (7, 11)][..]),
        // the bars of the matrix that it could be are given back
        ("{(a|b,|c|,d)}", &[(0, 12), (1, 11), (3, 6)]),
        ("{(a,b),(c,d)}", &[(0, 12), (1, 5), (7, 11)]),
        ("[(|a,b)|", &[(1, 6)]),
        ("[(a,b],(c,d)]", &[(0, 12), (1, 5), (7, 11)]),
        ("text(a)", &[(1, 3)]),
        ("((x)", &[(1, 3)]),
    ] {
        assert_eq!(closed(text), right, "{text}");
    }
}

#[test]
fn places_are_counted_without_spaces() {
    let text = " ( a + [ b ] ) ";
    let right = [Some(6), None, None, Some(5), None, None, None];
    assert_eq!(closers(text).unwrap(), right);
    assert_eq!(closers_tokens(text, tokens(text)).unwrap(), right);
    assert_eq!(pairs(text).unwrap(), [(1..2, 13..14), (7..8, 11..12)]);
}

#[test]
fn closers_of_token_lists() {
    for text in ["", "x^2/3", "[[1, 2], [3, 4]] text(a)", "| a | )", "(|a|"] {
        assert_eq!(closers_tokens(text, tokens(text)), closers(text), "{text}");
    }
    // tokens of the caller's own: spans may be equal, and any token a bracket
    let text = "ab";
    let list = [
        (&text[..1], Token::OpenBracket),
        (&text[1..1], Token::Space),
        (&text[..1], Token::OpenBracket),
        (&text[..1], Token::CloseBracket),
        (&text[1..], Token::CloseBracket),
    ];
    let right = [Some(3), Some(2), None, None];
    assert_eq!(closers_tokens(text, list).unwrap(), right);
    assert_eq!(closers_tokens(text, []).unwrap(), []);
}

#[test]
fn pairs_of_texts() {
    for (text, right) in [
        ("", &[][..]),
        ("(a", &[]),
        ("|x|", &[(0..1, 2..3)]),
        // all bytes of a bracket, and no blanks
        ("langle x rangle", &[(0..6, 9..15)]),
        ("(: a :)|__ b __|", &[(0..2, 5..7), (7..10, 13..16)]),
        (
            "[[1,2],[3,4]]",
            &[(0..1, 12..13), (1..2, 5..6), (7..8, 11..12)],
        ),
    ] {
        assert_eq!(pairs(text).unwrap(), right, "{text}");
    }
}

#[test]
fn pairs_are_the_closers_with_their_spans() {
    let text = "[ (a, | x + langle y rangle |), (c, text( d ))] {: |b :} ) ( 1";
    let spans: Vec<_> = tokens(text)
        .into_iter()
        .filter(|(_, token)| *token != Token::Space)
        .map(|(part, _)| {
            let start = part.as_ptr() as usize - text.as_ptr() as usize;
            start..start + part.len()
        })
        .collect();
    let right: Vec<_> = closed(text)
        .into_iter()
        .map(|(opener, closer)| (spans[opener].clone(), spans[closer].clone()))
        .collect();
    assert_eq!(pairs(text).unwrap(), right);
    assert_eq!(right.len(), 7);
}

#[test]
fn refusals() {
    let (long, longest) = ("(".repeat(4097), "()".repeat(2048));
    assert_eq!(closers(&long), Err(Refusal::LONG_TEXT));
    assert_eq!(pairs(&long), Err(Refusal::LONG_TEXT));
    assert_eq!(pairs(&longest).unwrap().len(), 2048);
    assert_eq!(closers("(π)"), Err(Refusal::NOT_ASCII));
    assert_eq!(pairs("(π)"), Err(Refusal::NOT_ASCII));
    let text = "a b";
    let refused = |list: &[(&str, Token)]| closers_tokens(text, list.iter().copied()).unwrap_err();
    let many = vec![(&text[..1], Token::Ident); 4097];
    assert_eq!(refused(&many), Refusal::TOKEN_COUNT);
    assert_eq!(refused(&[("elsewhere", Token::Ident)]), Refusal::TOKEN_SPAN);
    let blank = (&text[1..2], Token::Space);
    assert_eq!(refused(&[blank, blank]), Refusal::DOUBLE_SPACE);
    assert_eq!(closers_tokens("π", []), Err(Refusal::NOT_ASCII));
}

#[test]
fn buffers_of_a_text() {
    let text = b"( a )";
    let (mut table, mut out, mut answer) = ([7; 18], [7; 5], [7; 3]);
    // too short: the table is looked at first, and nothing is written
    let code = calls::closers_text(text, &mut table[..14], &mut out[..2], &mut answer);
    assert_eq!(code, Refusal::SHORT_TABLE.number());
    let code = calls::closers_text(text, &mut table, &mut out[..2], &mut answer);
    assert_eq!(code, Refusal::SHORT_WORK.number());
    assert_eq!((table, out, answer), ([7; 18], [7; 5], [7; 3]));
    // words behind stay as they were
    let code = calls::closers_text(text, &mut table, &mut out, &mut answer);
    assert_eq!((code, out, answer), (0, [2, 3, 3, 7, 7], [5, 3, 7]));
    assert_eq!(table[12..], [4, 1, 21, 7, 7, 7]);
    // no words are needed if no token is other than Space
    let code = calls::closers_text(b" ", &mut table, &mut [], &mut answer);
    assert_eq!((code, answer), (0, [1, 0, 7]));
}

#[test]
fn buffers_of_a_list() {
    let (text, table) = (b"( )", [0, 1, 20, 1, 1, 23, 2, 1, 21, 7]);
    let (mut out, mut answer) = ([7; 3], [7; 2]);
    let code = calls::closers(text, &table, 3, &mut out[..1], &mut answer);
    assert_eq!(code, Refusal::SHORT_WORK.number());
    let code = calls::closers(text, &table, 4, &mut out, &mut answer);
    assert_eq!(code, Refusal::TOKEN_COUNT.number());
    assert_eq!((out, answer), ([7; 3], [7; 2]));
    let code = calls::closers(text, &table, 3, &mut out, &mut answer);
    assert_eq!((code, out, answer), (0, [1, 2, 7], [2, 7]));
    let code = calls::closers(text, &table[3..], 1, &mut [], &mut answer);
    assert_eq!((code, answer), (0, [0, 7]));
    let shown = Refusal::SHORT_WORK.to_string();
    let right = "refused (8): the work buffer or the buffer of closers is too short";
    assert_eq!(shown, right);
}

#[test]
fn a_reader_is_used_again() {
    let long = "[[1,2],[3,4]] ".repeat(200);
    let mut reader = Reader::new();
    for text in ["", &long, "(x)", "π", "(a", &"1".repeat(4097), &long, " "] {
        let fresh = Reader::new().closers(text);
        assert_eq!(reader.closers(text), fresh);
        assert_eq!(closers(text), fresh);
        assert_eq!(reader.pairs(text), Reader::new().pairs(text));
        assert_eq!(reader.read(text), read(text));
        let Ok(tokens) = reader.tokenizer(text) else {
            continue;
        };
        assert_eq!(reader.closers_tokens(text, tokens.clone()), fresh);
        assert_eq!(closers_tokens(text, tokens), fresh);
    }
}

#[test]
fn closers_that_are_found_while_a_list_is_read() {
    let text = "(|a|)";
    let list = tokens(text).into_iter().inspect(|(part, _)| {
        assert_eq!(closers(part).unwrap(), [None]);
    });
    assert_eq!(closers_tokens(text, list), closers(text));
}

/// A text of brackets that seems random.
fn brackets(seed: &mut u64) -> String {
    let parts = [
        "(", ")", "[", "]", "|", ",", "{", "}", "a", " ", "sqrt", "^",
    ];
    let mut next = || {
        *seed = seed.wrapping_mul(6364136223846793005).wrapping_add(1);
        (*seed >> 33) as usize
    };
    (0..next() % 60)
        .map(|_| parts[next() % parts.len()])
        .collect()
}

#[test]
fn pairs_never_cross() {
    let mut seed = 1;
    for _ in 0..2000 {
        let text = brackets(&mut seed);
        // the starts of the closers to come, the next one last
        let mut open = vec![text.len()];
        for (opener, closer) in pairs(&text).unwrap() {
            assert!(opener.end <= closer.start, "{text}");
            while *open.last().unwrap() <= opener.start {
                assert_ne!(open.pop(), Some(opener.start), "{text}");
            }
            assert!(closer.start < *open.last().unwrap(), "{text}");
            open.push(closer.start);
        }
    }
}
