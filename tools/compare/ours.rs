//! The bindings' side: their tree in print, as the original's is printed, and their own functions.

use crate::check::{Case, Checked, all_fit, expect, same_lines};
use crate::kinds;
use crate::original::{self, Answer};
use crate::predict::{self, Lent};
use asciimath::borrowed::tree;
use asciimath::{Pair, Reading, Refusal, Token, Tokenizer, borrowed};
#[path = "../oracle/print.rs"]
mod print;

/// The print and the number of the tree's words; none if the words are no tree.
pub fn printed(
    text: &str,
    words: &[u32],
    tokens: usize,
    takes: u64,
    items: usize,
) -> Option<(String, usize)> {
    let (root, end) = asciimath::decode(text, words, items)?;
    Some((print::printed(text, tokens, takes, &root), end))
}

/// Compares the bindings' own functions, which lend buffers of their own. What can't be said in Rust
/// is passed over: a text that is no `str`, and a kind or a span that is none.
pub fn check(case: &Case, answer: Option<&Answer>) -> Checked {
    let Ok(text) = str::from_utf8(&case.text) else {
        return Ok(());
    };
    let Some((words, count)) = &case.list else {
        let refusal = predict::text(&case.text, 0, 0, 0, &Lent::default());
        let (owned, tree) = (asciimath::read(text), borrowed::parse(text));
        same_reading(text, refusal, owned, tree, answer)?;
        same_closers(refusal, asciimath::closers(text), answer)?;
        same_pairs(refusal, asciimath::pairs(text), answer)?;
        same_spellings(text)?;
        return same_beside(text, refusal, answer);
    };
    let Some(table) = words.get(..3 * count).filter(|table| all_fit(text, table)) else {
        return Ok(());
    };
    let refusal = predict::list(&case.text, words, *count, &Lent::default());
    let tokens = table.chunks_exact(3).map(|word| {
        let part = &text[word[0] as usize..][..word[1] as usize];
        (part, Token::of_number(word[2]).expect("a kind"))
    });
    let owned = asciimath::read_tokens(text, tokens.clone());
    let tree = borrowed::parse_tokens(text, tokens.clone());
    same_reading(text, refusal, owned, tree, answer)?;
    same_closers(refusal, asciimath::closers_tokens(text, tokens), answer)
}

/// The refusal of an answer, or 0.
fn number<X>(answer: &Result<X, Refusal>) -> u32 {
    answer
        .as_ref()
        .map_or_else(|refusal| refusal.number(), |_| 0)
}

fn same_refusals(numbers: &[u32], refusal: u32) -> Checked {
    if numbers.iter().all(|&number| number == refusal) {
        return Ok(());
    }
    Err(format!("the bindings refuse by {numbers:?}, not {refusal}"))
}

/// The owned and the borrowed reading are the original's, or have the refusal.
fn same_reading(
    text: &str,
    refusal: u32,
    owned: Result<Reading, Refusal>,
    tree: Result<tree::Expression, Refusal>,
    answer: Option<&Answer>,
) -> Checked {
    same_refusals(&[number(&owned), number(&tree)], refusal)?;
    let (Ok(owned), Ok(tree), Some(answer)) = (owned, tree, answer) else {
        return Ok(());
    };
    let beside = (owned.tokens, owned.takes, owned.blank);
    let right = (answer.table.len() / 3, answer.takes, answer.items == 0);
    if beside != right {
        return Err(format!("the bindings answer {beside:?}, not {right:?}"));
    }
    let printed = print::printed(text, owned.tokens, owned.takes, &tree);
    same_lines(&printed, &answer.printed)?;
    // the same tree, with its own parts of the text
    let same = text.len() > 200 || format!("{:?}", owned.tree) == format!("{tree:?}");
    expect(
        same,
        "the bindings' owned tree is another than the borrowed",
    )
}

/// The original's closers, none where a token has none.
fn places(answer: &Answer) -> impl Iterator<Item = Option<usize>> {
    let place = |&word: &u32| Some(word as usize).filter(|&place| place < answer.others);
    answer.closers.iter().map(place)
}

/// The closers are the original's, or have the refusal.
fn same_closers(
    refusal: u32,
    closers: Result<Vec<Option<usize>>, Refusal>,
    answer: Option<&Answer>,
) -> Checked {
    same_refusals(&[number(&closers)], refusal)?;
    let (Ok(closers), Some(answer)) = (closers, answer) else {
        return Ok(());
    };
    expect(places(answer).eq(closers), "the bindings' closers")
}

/// The pairs are the spans of the original's tokens and of their closers, or have the refusal.
fn same_pairs(refusal: u32, pairs: Result<Vec<Pair>, Refusal>, answer: Option<&Answer>) -> Checked {
    same_refusals(&[number(&pairs)], refusal)?;
    let (Ok(pairs), Some(answer)) = (pairs, answer) else {
        return Ok(());
    };
    let tokens = answer.table.chunks_exact(3).filter(|word| word[2] != 23);
    let spans: Vec<_> = tokens
        .map(|word| word[0] as usize..(word[0] + word[1]) as usize)
        .collect();
    let right = places(answer)
        .zip(&spans)
        .filter_map(|(closer, opener)| Some((opener.clone(), spans[closer?].clone())));
    expect(right.eq(pairs), "the bindings' pairs")
}

/// The longest spelling at each place of a text.
fn same_spellings(text: &str) -> Checked {
    for at in 0..=text.len() {
        let found = asciimath::lookup(text, at)
            .map(|found| [found.len, found.token.number() as usize, found.row]);
        let expected = original::lookup(text.as_bytes(), at);
        if found.map(|found| found.map(|value| value as u64)) != expected {
            return Err(format!(
                "the spelling at {at} is {found:?}, not {expected:?}"
            ));
        }
    }
    Ok(())
}

/// The tokens and the print of a text.
fn same_beside(text: &str, refusal: u32, answer: Option<&Answer>) -> Checked {
    let (tokens, printed) = (Tokenizer::new(text), asciimath::print(text));
    same_refusals(&[number(&tokens), number(&printed)], refusal)?;
    let (Ok(tokens), Ok(printed), Some(answer)) = (tokens, printed, answer) else {
        return Ok(());
    };
    let table = tokens.flat_map(|(part, token)| {
        let start = kinds::start(text, part);
        [start as u32, part.len() as u32, token.number()]
    });
    expect(
        table.eq(answer.table.iter().copied()),
        "the bindings' tokens",
    )?;
    same_lines(&printed, &answer.printed)
}
