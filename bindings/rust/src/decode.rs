//! Tree words back into a tree (docs/LAYOUT.md).
//!
//! The words are a preorder. They are gone over once, without recursion: what the words ahead are,
//! and what is to be made behind them, waits on one stack; what is made and not yet below a node, on
//! others.

use crate::part::Parts;
use crate::tree::{
    Expression, Frac, Func, Group, Intermediate, Matrix, Script, ScriptFunc, Signed, Simple,
    SimpleBinary, SimpleFunc, SimpleScript, SimpleSigned, SimpleUnary, Symbol,
};
use crate::{SymbolClass, Token};
use std::mem;

/// The words of a node, but for the last two of a matrix.
type Node = [u32; 6];

/// What is ahead: words to be read, so many of it, or something to be made of what then waits.
enum Ahead<'w> {
    /// Items of the open row.
    Items(u32),
    Simples(u32),
    ScriptFuncs(u32),
    /// Cells of the open matrix.
    Cells(u32),
    /// The item of a simple, with the number of its script.
    SimpleItem(u32),
    /// Another item that is no fraction.
    Item,
    Frac,
    Node(&'w Node),
    Matrix(&'w Node, &'w [u32; 2]),
    /// The end of a cell, by how many words are left there.
    CellEnd(usize),
}

/// The tree whose root has so many items, and the number of its words; none if the words are no
/// tree over the text. Parts of the text are held as `T` makes them. A reading's tree is at most a
/// thousand nodes deep; words from elsewhere can make a deeper one, and dropping it needs the stack.
#[must_use]
pub fn decode<'a, T: From<&'a str>>(
    text: &'a str,
    words: &[u32],
    items: usize,
) -> Option<(Expression<T>, usize)> {
    decode_with(words, items, |span| text.get(span).map(T::from))
}

/// As [`decode`], with the parts that `parts` makes.
pub(crate) fn decode_with<T>(
    words: &[u32],
    items: usize,
    parts: impl Parts<T>,
) -> Option<(Expression<T>, usize)> {
    let mut decoder = Decoder {
        parts,
        rest: words,
        unclaimed: words.len(),
        ahead: Vec::new(),
        simples: Vec::new(),
        script_funcs: Vec::new(),
        row: Vec::new(),
        outer_rows: Vec::new(),
        matrices: Vec::new(),
    };
    decoder.open_row(u32::try_from(items).ok()?)?;
    while let Some(next) = decoder.ahead.pop() {
        decoder.step(next)?;
    }
    let root = decoder.close_row()?;
    Some((root, words.len() - decoder.rest.len()))
}

struct Decoder<'w, T, P> {
    parts: P,
    /// The words that are not yet read.
    rest: &'w [u32],
    /// How many words are not claimed by the items and cells that were announced.
    unclaimed: usize,
    ahead: Vec<Ahead<'w>>,
    simples: Vec<Simple<T>>,
    script_funcs: Vec<ScriptFunc<T>>,
    /// The items so far of the innermost open row, and of those around it.
    row: Vec<Intermediate<T>>,
    outer_rows: Vec<Vec<Intermediate<T>>>,
    /// The cells so far of each open matrix.
    matrices: Vec<Vec<Expression<T>>>,
}

impl<'w, T, P: Parts<T>> Decoder<'w, T, P> {
    fn step(&mut self, next: Ahead<'w>) -> Option<()> {
        match next {
            Ahead::Items(count) => self.items(count)?,
            Ahead::Simples(count) => self.simples(count)?,
            Ahead::ScriptFuncs(count) => self.script_funcs(count)?,
            Ahead::Cells(count) => self.cells(count)?,
            Ahead::Item => {
                let part = self.script_funcs.pop()?;
                self.push(|| Intermediate::ScriptFunc(part))?;
            }
            Ahead::SimpleItem(script) => {
                let part = self.close_scripted(script)?;
                self.push(|| Intermediate::ScriptFunc(ScriptFunc::Simple(part)))?;
            }
            Ahead::Frac => {
                let denom = self.script_funcs.pop()?;
                let numer = self.script_funcs.pop()?;
                self.push(|| Intermediate::Frac(Frac { numer, denom }))?;
            }
            Ahead::Node(node) => match node[0] {
                8 | 13 | 14 => self.close_script_func(node)?,
                _ => self.close_simple(node)?,
            },
            Ahead::Matrix(node, shape) => self.close_matrix(node, shape)?,
            Ahead::CellEnd(left) => {
                if self.rest.len() != left {
                    return None;
                }
                let cell = self.close_row()?;
                self.matrices.last_mut()?.push(cell);
            }
        }
        Some(())
    }

    /// Items, up to one that has to wait for its parts.
    fn items(&mut self, count: u32) -> Option<()> {
        for left in (0..count).rev() {
            let (&first, rest) = self.rest.split_first()?;
            self.rest = rest;
            match first {
                0 if self.item(left)? => {}
                0 => return Some(()),
                1 => {
                    self.ahead.extend([Ahead::Items(left), Ahead::Frac]);
                    return self.script_funcs(2);
                }
                _ => return None,
            }
        }
        Some(())
    }

    /// An item that is no fraction. Whether it is made; else it waits for its parts, and behind it as
    /// many items as are left.
    #[inline(always)]
    fn item(&mut self, left: u32) -> Option<bool> {
        let node = self.read_node()?;
        match *node {
            [6, start, len, 0, 0, 0] => {
                let space = self.part(start, len)?;
                self.push(|| Intermediate::Space(space))?;
                return Some(true);
            }
            [13, 0, 0, 0, 0, 0] => {
                let below = self.read_node()?;
                if let Some(simple) = self.leaf(below)? {
                    self.push(|| Intermediate::ScriptFunc(unscripted(simple)))?;
                    return Some(true);
                }
                let next = [Ahead::Items(left), Ahead::SimpleItem(0)];
                self.ahead.extend(next);
                self.open_simple(below)?;
            }
            [13, 0, 0, script, 0, 0] => {
                let next = [Ahead::Items(left), Ahead::SimpleItem(script)];
                self.ahead.extend(next);
                self.simples(1 + scripts(script)?)?;
            }
            _ => {
                self.ahead.extend([Ahead::Items(left), Ahead::Item]);
                self.open_script_func(node)?;
            }
        }
        Some(false)
    }

    /// Adds an item to the open row, which has room for all of its items. That it is looked at first
    /// lets the item be made in its place: most are much smaller than the largest.
    #[inline(always)]
    fn push(&mut self, item: impl FnOnce() -> Intermediate<T>) -> Option<()> {
        if self.row.len() == self.row.capacity() {
            return None;
        }
        self.row.push(item());
        Some(())
    }

    fn simples(&mut self, count: u32) -> Option<()> {
        for left in (0..count).rev() {
            let node = self.read_node()?;
            match self.leaf(node)? {
                Some(simple) => self.simples.push(simple),
                None => {
                    self.ahead.push(Ahead::Simples(left));
                    return self.open_simple(node);
                }
            }
        }
        Some(())
    }

    fn script_funcs(&mut self, count: u32) -> Option<()> {
        for left in (0..count).rev() {
            let node = self.read_node()?;
            match self.plain(node)? {
                Some(simple) => self.script_funcs.push(unscripted(simple)),
                None => {
                    self.ahead.push(Ahead::ScriptFuncs(left));
                    return self.open_script_func(node);
                }
            }
        }
        Some(())
    }

    fn cells(&mut self, count: u32) -> Option<()> {
        let Some(left) = count.checked_sub(1) else {
            return Some(());
        };
        let &[17, 0, 0, items, words, 0] = self.read_node()? else {
            return None;
        };
        let end = self.rest.len().checked_sub(words as usize)?;
        self.ahead.extend([Ahead::Cells(left), Ahead::CellEnd(end)]);
        self.open_row(items)
    }

    fn read_node(&mut self) -> Option<&'w Node> {
        let (node, rest) = self.rest.split_first_chunk()?;
        self.rest = rest;
        Some(node)
    }

    /// The leaf that an unscripted simple is; else nothing more is read.
    fn plain(&mut self, node: &Node) -> Option<Option<Simple<T>>> {
        let [13, 0, 0, 0, 0, 0] = node else {
            return Some(None);
        };
        let (below, rest) = self.rest.split_first_chunk()?;
        let leaf = self.leaf(below)?;
        if leaf.is_some() {
            self.rest = rest;
        }
        Some(leaf)
    }

    /// What a node is that has none below it; nothing for another one that can be a `Simple`.
    #[inline(always)]
    fn leaf(&mut self, node: &Node) -> Option<Option<Simple<T>>> {
        let &[kind, start, len, class, 0, 0] = node else {
            return Some(None);
        };
        if kind > 7 {
            return Some(None);
        }
        let token = self.part(start, len)?;
        Some(Some(match (kind, class) {
            (0, 0) if start == 0 && len == 0 => Simple::Missing,
            (1, 0) => Simple::Number(token),
            (2, 0) => Simple::Text(token),
            (3, 0) => Simple::Ident(token),
            (4, 0) => Simple::Operator(token),
            (5, 0) => Simple::Sign(token),
            (7, _) => Simple::Symbol(Symbol {
                text: token,
                class: class_of(class)?,
            }),
            _ => return None,
        }))
    }

    fn open_simple(&mut self, node: &'w Node) -> Option<()> {
        match node {
            [9..=11, _, _, 0, 0, 0] => self.ahead.extend([Ahead::Node(node), Ahead::Simples(1)]),
            [12, _, _, 0, 0, 0] => self.ahead.extend([Ahead::Node(node), Ahead::Simples(2)]),
            &[15, _, _, items, _, _] => {
                self.ahead.push(Ahead::Node(node));
                self.open_row(items)?;
            }
            &[16, _, _, cells, _, _] => {
                let (shape, rest) = self.rest.split_first_chunk()?;
                self.rest = rest;
                let room = self.claim(cells, 6)?;
                self.matrices.push(Vec::with_capacity(room));
                self.ahead
                    .extend([Ahead::Matrix(node, shape), Ahead::Cells(cells)]);
            }
            _ => return None,
        }
        Some(())
    }

    fn open_script_func(&mut self, node: &'w Node) -> Option<()> {
        self.ahead.push(Ahead::Node(node));
        match *node {
            [8, _, _, 0, 0, 0] => self.ahead.push(Ahead::ScriptFuncs(1)),
            [13, 0, 0, script, 0, 0] => return self.simples(1 + scripts(script)?),
            [14, _, _, script, 0, 0] => {
                self.ahead.push(Ahead::ScriptFuncs(1));
                return self.simples(scripts(script)?);
            }
            _ => return None,
        }
        Some(())
    }

    fn open_row(&mut self, items: u32) -> Option<()> {
        let row = Vec::with_capacity(self.claim(items, 7)?);
        self.outer_rows.push(mem::replace(&mut self.row, row));
        self.ahead.push(Ahead::Items(items));
        Some(())
    }

    /// Announces so many parts of at least so many words of their own, so that no more memory is
    /// taken for them than the words are worth.
    fn claim(&mut self, count: u32, words: usize) -> Option<usize> {
        let count = count as usize;
        self.unclaimed = self.unclaimed.checked_sub(count.checked_mul(words)?)?;
        Some(count)
    }

    fn close_row(&mut self) -> Option<Expression<T>> {
        let row = mem::replace(&mut self.row, self.outer_rows.pop()?);
        Some(Expression(row.into_boxed_slice()))
    }

    fn close_simple(&mut self, node: &Node) -> Option<()> {
        let &[kind, start, len, _, right, right_len] = node;
        let token = self.part(start, len)?;
        let made = match kind {
            9 => Simple::Signed(SimpleSigned {
                sign: token,
                operand: self.simples.pop()?.into(),
            }),
            10 => Simple::Unary(SimpleUnary {
                op: token,
                arg: self.simples.pop()?.into(),
            }),
            11 => Simple::Func(SimpleFunc {
                func: token,
                arg: self.simples.pop()?.into(),
            }),
            12 => {
                let second = self.simples.pop()?.into();
                let first = self.simples.pop()?.into();
                Simple::Binary(SimpleBinary {
                    op: token,
                    first,
                    second,
                })
            }
            15 => Simple::Group(Group {
                left_bracket: token,
                expr: self.close_row()?,
                right_bracket: self.part(right, right_len)?,
            }),
            _ => return None,
        };
        self.put(made)
    }

    /// A simple that is made goes into the open row, if that is what waits for it, else on the stack.
    #[inline(never)]
    fn put(&mut self, simple: Simple<T>) -> Option<()> {
        let waits = |next: &mut Ahead| matches!(next, Ahead::SimpleItem(0));
        if self.ahead.pop_if(waits).is_some() {
            return self.push(|| Intermediate::ScriptFunc(unscripted(simple)));
        }
        self.simples.push(simple);
        Some(())
    }

    fn close_matrix(&mut self, node: &Node, shape: &[u32; 2]) -> Option<()> {
        let &[_, start, len, _, right, right_len] = node;
        let &[columns, lines] = shape;
        let (lines, rest) = self.rest.split_at_checked(lines as usize)?;
        self.rest = rest;
        let matrix = Matrix::new(
            self.part(start, len)?,
            self.matrices.pop()?.into_boxed_slice(),
            columns as usize,
            lines.iter().map(|&line| line as usize).collect(),
            self.part(right, right_len)?,
        )?;
        self.put(Simple::Matrix(matrix))
    }

    fn close_script_func(&mut self, node: &Node) -> Option<()> {
        let &[kind, start, len, script, _, _] = node;
        let made = match kind {
            8 => ScriptFunc::Signed(Signed {
                sign: self.part(start, len)?,
                operand: self.script_funcs.pop()?.into(),
            }),
            13 => ScriptFunc::Simple(self.close_scripted(script)?),
            14 => ScriptFunc::Func(Func {
                func: self.part(start, len)?,
                script: self.close_script(script)?,
                arg: self.script_funcs.pop()?.into(),
            }),
            _ => return None,
        };
        self.script_funcs.push(made);
        Some(())
    }

    #[inline]
    fn close_scripted(&mut self, script: u32) -> Option<SimpleScript<T>> {
        let script = self.close_script(script)?;
        let simple = self.simples.pop()?;
        Some(SimpleScript { simple, script })
    }

    #[inline]
    fn close_script(&mut self, number: u32) -> Option<Script<T>> {
        Some(match number {
            0 => Script::None,
            1 => Script::Sub(self.simples.pop()?),
            2 => Script::Super(self.simples.pop()?),
            3 => {
                let sup = self.simples.pop()?;
                Script::Subsuper(self.simples.pop()?, sup)
            }
            _ => return None,
        })
    }

    /// The part of the text with this start and length.
    #[inline(always)]
    fn part(&mut self, start: u32, len: u32) -> Option<T> {
        let end = start.checked_add(len)?;
        self.parts.part(start as usize..end as usize)
    }
}

#[inline]
fn unscripted<T>(simple: Simple<T>) -> ScriptFunc<T> {
    let script = Script::None;
    ScriptFunc::Simple(SimpleScript { simple, script })
}

/// How many scripts those of this number are: its bits are the sub and the super.
fn scripts(number: u32) -> Option<u32> {
    (number < 4).then(|| number.count_ones())
}

fn class_of(number: u32) -> Option<SymbolClass> {
    match Token::of_number(number.checked_add(8)?)? {
        Token::Symbol(class) => Some(class),
        _ => None,
    }
}
