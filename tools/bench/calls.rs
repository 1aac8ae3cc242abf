//! The calls that are timed, each with the original's side and the comparison of their answers.

use crate::inputs::{Input, LONGEST, Text};
use crate::{original, ours, writer};
use asciimath::{borrowed, calls};
use asciimath_parser::{Token, Tokenizer, parse, parse_tokens, tree};
use std::hint::black_box;

/// Words of work, and of tree, for each token other than Space and one more.
const WORK: usize = 2;
const TREE: usize = 32;

/// What the calls write to, used again for every text.
pub struct Room {
    tokens: Vec<(Text, Token)>,
    our_tokens: Vec<(Text, asciimath::Token)>,
    table: Vec<u32>,
    work: Vec<u32>,
    tree: Vec<u32>,
    closers: Vec<u32>,
    out: Vec<u8>,
    written: Vec<u8>,
    answer: [u64; 4],
}

impl Room {
    pub fn new() -> Self {
        Room {
            tokens: Vec::with_capacity(LONGEST),
            our_tokens: Vec::with_capacity(LONGEST),
            table: vec![0; 3 * LONGEST],
            work: vec![0; WORK * (LONGEST + 1)],
            tree: vec![0; TREE * (LONGEST + 1)],
            closers: vec![0; LONGEST],
            out: vec![0; 48 * LONGEST + 72],
            written: Vec::with_capacity(48 * LONGEST + 72),
            answer: [0; 4],
        }
    }
}

pub type Side = fn(&Input, &mut Room);

pub struct Call {
    pub name: &'static str,
    pub original: Side,
    pub ours: Side,
    /// Stops where the answers differ. Called after `ours`.
    pub same: Side,
    pub on_lists: bool,
}

/// The lent buffers are as long as a caller makes them that knows only the text's bytes, or the
/// length of its token list. `cut` are just the words that the text needs, `4,096` those that any
/// text may need.
pub const CALLS: [Call; 13] = [
    on_texts("tokens", original_tokens, our_tokens, same_tokens),
    on_texts("parse", original_parse, parse_by_bytes, same_parse),
    on_texts("parse, cut", original_parse, parse_cut, same_parse),
    on_texts("parse, 4,096", original_parse, parse_longest, same_parse),
    on_all("parse_tokens", original_list, list_by_length, same_list),
    on_all("parse_tokens, cut", original_list, list_cut, same_list),
    on_texts("closers", original_parse, our_closers, same_closers),
    on_texts("mathml", original_mathml, mathml_by_bytes, same_mathml),
    on_texts("mathml, cut", original_mathml, mathml_cut, same_mathml),
    on_texts(
        "tokens, crate",
        original_tokens,
        crate_tokens,
        same_crate_tokens,
    ),
    on_texts(
        "parse, crate",
        original_parse,
        crate_parse,
        same_crate_parse,
    ),
    on_texts(
        "parse, borrowed",
        original_parse,
        borrowed_parse,
        same_borrowed_parse,
    ),
    on_all(
        "parse_tokens, crate",
        original_list,
        crate_list,
        same_crate_list,
    ),
];

const fn on_texts(name: &'static str, original: Side, ours: Side, same: Side) -> Call {
    Call {
        name,
        original,
        ours,
        same,
        on_lists: false,
    }
}

const fn on_all(name: &'static str, original: Side, ours: Side, same: Side) -> Call {
    Call {
        on_lists: true,
        ..on_texts(name, original, ours, same)
    }
}

fn accepted(code: u32) {
    assert_eq!(black_box(code), 0, "refused");
}

// tokens

fn original_tokens(input: &Input, room: &mut Room) {
    room.tokens.clear();
    room.tokens.extend(Tokenizer::new(input.text));
}

fn our_tokens(input: &Input, room: &mut Room) {
    let table = &mut room.table[..3 * input.text.len()];
    accepted(calls::tokens(input.bytes(), table, &mut room.answer));
}

/// The table of the input has the original's tokens.
fn same_tokens(input: &Input, room: &mut Room) {
    assert_eq!(room.answer[0], input.tokens.len() as u64);
    assert_eq!(room.table[..input.table.len()], input.table);
}

fn crate_tokens(input: &Input, room: &mut Room) {
    room.our_tokens.clear();
    let tokens = asciimath::Tokenizer::new(input.text);
    room.our_tokens.extend(tokens.expect("accepted"));
}

fn same_crate_tokens(input: &Input, room: &mut Room) {
    let place = |&(part, token): &(Text, asciimath::Token)| (part.as_ptr(), part.len(), token);
    let (ours, right) = (room.our_tokens.iter(), input.our_tokens.iter());
    assert!(ours.map(place).eq(right.map(place)), "the tokens differ");
}

// a text's tree

fn original_parse(input: &Input, _: &mut Room) {
    black_box(parse(input.text));
}

/// With buffers for so many tokens, and for so many other than Space.
fn our_parse(input: &Input, room: &mut Room, tokens: usize, others: usize) {
    accepted(calls::parse(
        input.bytes(),
        &mut room.table[..3 * tokens],
        &mut room.work[..WORK * (others + 1)],
        &mut room.tree[..TREE * (others + 1)],
        &mut room.answer,
    ));
}

fn parse_by_bytes(input: &Input, room: &mut Room) {
    our_parse(input, room, input.text.len(), input.text.len());
}

fn parse_cut(input: &Input, room: &mut Room) {
    our_parse(input, room, input.tokens.len(), input.others);
}

fn parse_longest(input: &Input, room: &mut Room) {
    our_parse(input, room, LONGEST, LONGEST);
}

fn same_parse(input: &Input, room: &mut Room) {
    same_tokens(input, room);
    let [_, takes, items, blank] = room.answer;
    same_tree(input, room, &parse(input.text), [takes, items, blank]);
}

/// Every node in the words, with its fields, is the original's. The plain original doesn't count
/// its takes: run.sh has them compared by tools/compare.
fn same_tree(input: &Input, room: &Room, original: &tree::Expression, answer: [u64; 3]) {
    let [takes, items, blank] = answer;
    assert_eq!(blank, u64::from(original.is_empty()));
    let decoded = asciimath::decode(input.text, &room.tree, items as usize);
    let (root, _) = decoded.expect("the words are a tree");
    let tokens = input.tokens.len();
    let ours = ours::printed(input.text, tokens, takes, &root);
    assert_eq!(ours, original::printed(input.text, tokens, takes, original));
}

fn crate_parse(input: &Input, _: &mut Room) {
    black_box(asciimath::parse(input.text).expect("accepted"));
}

/// The owned tree has no places in the text, so that its parts are compared as strings.
fn same_crate_parse(input: &Input, _: &mut Room) {
    let ours = asciimath::parse(input.text).expect("accepted");
    assert_eq!(format!("{ours:?}"), format!("{:?}", parse(input.text)));
}

fn borrowed_parse(input: &Input, _: &mut Room) {
    black_box(borrowed::parse(input.text).expect("accepted"));
}

fn same_borrowed_parse(input: &Input, _: &mut Room) {
    let ours = borrowed::parse(input.text).expect("accepted");
    let ours = ours::printed(input.text, 0, 0, &ours);
    let original = original::printed(input.text, 0, 0, &parse(input.text));
    assert_eq!(ours, original);
}

// the tree of a token list

fn original_list(input: &Input, _: &mut Room) {
    black_box(parse_tokens(input.tokens.iter().copied()));
}

/// With buffers for so many tokens other than Space.
fn our_list(input: &Input, room: &mut Room, others: usize) {
    accepted(calls::parse_tokens(
        input.bytes(),
        &input.table,
        input.tokens.len(),
        &mut room.work[..WORK * (others + 1)],
        &mut room.tree[..TREE * (others + 1)],
        &mut room.answer,
    ));
}

fn list_by_length(input: &Input, room: &mut Room) {
    our_list(input, room, input.tokens.len());
}

fn list_cut(input: &Input, room: &mut Room) {
    our_list(input, room, input.others);
}

fn same_list(input: &Input, room: &mut Room) {
    let original = parse_tokens(input.tokens.iter().copied());
    let [takes, items, blank, _] = room.answer;
    same_tree(input, room, &original, [takes, items, blank]);
}

fn our_list_tree(input: &Input) -> asciimath::tree::Expression {
    let tokens = input.our_tokens.iter().copied();
    asciimath::parse_tokens(input.text, tokens).expect("accepted")
}

fn crate_list(input: &Input, _: &mut Room) {
    black_box(our_list_tree(input));
}

fn same_crate_list(input: &Input, _: &mut Room) {
    let original = parse_tokens(input.tokens.iter().copied());
    let ours = our_list_tree(input);
    assert_eq!(format!("{ours:?}"), format!("{original:?}"));
}

// closers: the original has no such call, and its side is the reading of the text

fn our_closers(input: &Input, room: &mut Room) {
    accepted(calls::closers_text(
        input.bytes(),
        &mut room.table[..3 * input.text.len()],
        &mut room.closers[..input.text.len()],
        &mut room.answer,
    ));
}

/// The closers themselves are compared by tools/compare, as the takes are.
fn same_closers(input: &Input, room: &mut Room) {
    same_tokens(input, room);
    assert_eq!(room.answer[1], input.others as u64);
}

// MathML: the original has none, and its side is its reading and a plain writer over its tree

fn original_mathml(input: &Input, room: &mut Room) {
    room.written.clear();
    writer::mathml(input.text, &mut room.written).expect("accepted");
}

/// With buffers as for `our_parse`.
fn our_mathml(input: &Input, room: &mut Room, tokens: usize, others: usize) {
    accepted(calls::mathml(
        input.bytes(),
        &mut room.table[..3 * tokens],
        &mut room.work[..WORK * (others + 1)],
        &mut room.tree[..TREE * (others + 1)],
        &mut room.out[..48 * input.text.len() + 72],
        &mut room.answer,
    ));
}

fn mathml_by_bytes(input: &Input, room: &mut Room) {
    our_mathml(input, room, input.text.len(), input.text.len());
}

fn mathml_cut(input: &Input, room: &mut Room) {
    our_mathml(input, room, input.tokens.len(), input.others);
}

fn same_mathml(input: &Input, room: &mut Room) {
    original_mathml(input, room);
    assert_eq!(room.out[..room.answer[0] as usize], room.written);
}
