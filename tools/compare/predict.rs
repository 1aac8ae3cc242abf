//! The refusals of document 01, by its sentences.

/// The lengths of the buffers lent to a call, none where the call has no such buffer.
#[derive(Clone, Copy, Default)]
pub struct Lent {
    pub table: Option<usize>,
    pub work: Option<usize>,
    pub tree: Option<usize>,
    pub closers: Option<usize>,
    pub print: Option<usize>,
}

fn short(lent: Option<usize>, needed: usize) -> bool {
    lent.is_some_and(|length| length < needed)
}

fn of_text(text: &[u8]) -> Option<u32> {
    if text.len() > 4096 {
        Some(1)
    } else if text.iter().any(|&byte| byte >= 128) {
        Some(2)
    } else {
        None
    }
}

/// Words of work, and of tree, for each token other than Space and one more: work needs 2 × (n + 1)
/// words, tree 32 × (n + 1).
pub const WORK: usize = 2;
pub const TREE: usize = 32;

/// "In a lent buffer of n words (a shorter one is 8)": the closers.
fn of_others(others: usize, lent: &Lent) -> Option<u32> {
    if short(lent.work, WORK * (others + 1)) || short(lent.closers, others) {
        Some(8)
    } else if short(lent.tree, TREE * (others + 1)) {
        Some(9)
    } else {
        None
    }
}

/// "For text: 1, 2, 7, 8, 9, 10, each where the call has that buffer." Or 0. `tokens`, `others` and
/// `print` are those of the text, where it is not refused by itself.
pub fn text(text: &[u8], tokens: usize, others: usize, print: usize, lent: &Lent) -> u32 {
    of_text(text)
        .or(short(lent.table, 3 * tokens).then_some(7))
        .or(of_others(others, lent))
        .or(short(lent.print, print).then_some(10))
        .unwrap_or(0)
}

/// "For a token list: 1, 2, 3, then token by token 4, 5, 6, then 8, 9." Or 0.
pub fn list(text: &[u8], table: &[u32], count: usize, lent: &Lent) -> u32 {
    let of_list = || {
        if count > 4096 || table.len() < 3 * count {
            return Err(3);
        }
        let (mut others, mut long_space) = (0, false);
        for token in table.chunks_exact(3).take(count) {
            let (start, len, kind) = (u64::from(token[0]), u64::from(token[1]), token[2]);
            if kind > 23 {
                return Err(4);
            }
            if start + len > text.len() as u64 {
                return Err(5);
            }
            if kind == 23 && long_space {
                return Err(6);
            }
            long_space = kind == 23 && len >= 1;
            others += usize::from(kind != 23);
        }
        Ok(others)
    };
    of_text(text).unwrap_or_else(|| match of_list() {
        Err(number) => number,
        Ok(others) => of_others(others, lent).unwrap_or(0),
    })
}
