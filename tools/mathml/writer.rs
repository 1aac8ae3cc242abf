//! The MathML of a text by the rules of docs/MATHML.md, from the tree of the Rust original: what a
//! user of that crate would write. Nothing here comes from the project's code or definitions.

extern crate rustc_hash;

use self::rustc_hash::FxBuildHasher;
use asciimath_parser::tree::{
    Expression, Func, Group, Intermediate, Matrix, Script, ScriptFunc, Simple, SimpleBinary,
    SimpleUnary,
};
use asciimath_parser::{ASCIIMATH_TOKENS, SymbolClass, parse};
use std::collections::HashMap;
use std::sync::LazyLock;

/// A tree with something that has no MathML here.
pub const NO_MATHML: u8 = 11;

/// Puts the MathML of an ASCII text behind the bytes of `out`. After a refusal `out` is as before.
pub fn mathml(text: &str, out: &mut Vec<u8>) -> Result<(), u8> {
    write(&parse(text), out)
}

/// The same for a tree that was read.
pub fn write(root: &Expression, out: &mut Vec<u8>) -> Result<(), u8> {
    let length = out.len();
    let mut writer = Writer {
        out,
        refused: false,
    };
    writer.root(root);
    if writer.refused {
        out.truncate(length);
        return Err(NO_MATHML);
    }
    Ok(())
}

struct Element {
    start: &'static str,
    end: &'static str,
}

macro_rules! elements {
    ($($element:ident => $name:literal $attributes:literal;)+) => {
        $(
            const $element: Element = Element {
                start: concat!("<", $name, $attributes, ">"),
                end: concat!("</", $name, ">"),
            };
        )+
    };
}

elements!(
    MATH => "math" r#" xmlns="http://www.w3.org/1998/Math/MathML" display="block""#;
    MROW => "mrow" "";
    MN => "mn" "";
    MTEXT => "mtext" "";
    MI => "mi" "";
    MO => "mo" "";
    // a symbol that is no operator
    CLOSE_MO => "mo" r#" lspace="0" rspace="0""#;
    // behind a function's name of several letters
    THIN_MO => "mo" r#" rspace="0.1667em""#;
    MSPACE => "mspace" r#" width="0.25em""#;
    MFRAC => "mfrac" "";
    MSUB => "msub" "";
    MSUP => "msup" "";
    MSUBSUP => "msubsup" "";
    MSQRT => "msqrt" "";
    MROOT => "mroot" "";
    CANCEL => "menclose" r#" notation="updiagonalstrike""#;
    ACCENT => "mover" r#" accent="true""#;
    ACCENT_UNDER => "munder" r#" accentunder="true""#;
    MOVER => "mover" "";
    MUNDER => "munder" "";
    MTR => "mtr" "";
    MTD => "mtd" "";
);

/// A unary command: its element and the marks before and behind its argument.
fn unary(op: &str) -> Option<(Element, &'static str, &'static str)> {
    Some(match op {
        "sqrt" => (MSQRT, "", ""),
        "cancel" => (CANCEL, "", ""),
        "abs" | "Abs" => (MROW, "|", "|"),
        "norm" => (MROW, "\u{2016}", "\u{2016}"),
        "floor" => (MROW, "\u{230a}", "\u{230b}"),
        "ceil" => (MROW, "\u{2308}", "\u{2309}"),
        "hat" => (ACCENT, "", "^"),
        "bar" | "overline" => (ACCENT, "", "\u{203e}"),
        "vec" => (ACCENT, "", "\u{2192}"),
        "dot" => (ACCENT, "", "\u{2d9}"),
        "ddot" => (ACCENT, "", "\u{a8}"),
        "tilde" => (ACCENT, "", "~"),
        "overarc" | "overparen" => (ACCENT, "", "\u{23dc}"),
        "ul" | "underline" => (ACCENT_UNDER, "", "_"),
        "ubrace" | "underbrace" => (MUNDER, "", "\u{23df}"),
        "obrace" | "overbrace" => (MOVER, "", "\u{23de}"),
        _ => return None,
    })
}

/// The spellings that are shown in another form; that of `{:` and `:}` is empty.
static FORMS: LazyLock<HashMap<&str, &str, FxBuildHasher>> = LazyLock::new(|| {
    let rows = ASCIIMATH_TOKENS.iter();
    rows.filter_map(|row| Some((row.spelling, row.unicode?)))
        .collect()
});

fn shown(spelling: &str) -> &str {
    FORMS.get(spelling).copied().unwrap_or(spelling)
}

/// Where a node stands: only a group looks at it, for its brackets.
#[derive(Clone, Copy)]
enum Mode {
    Keep,
    Argument,
    Text,
}

impl Mode {
    fn drops(self, left: &str, right: &str) -> bool {
        match (left, right) {
            ("(", ")") | ("{", "}") => !matches!(self, Mode::Keep),
            ("[", "]") => matches!(self, Mode::Text),
            _ => false,
        }
    }
}

struct Writer<'a> {
    out: &'a mut Vec<u8>,
    /// Whether something was met that the rules refuse.
    refused: bool,
}

impl Writer<'_> {
    fn start(&mut self, element: &Element) {
        self.out.extend_from_slice(element.start.as_bytes());
    }

    fn end(&mut self, element: &Element) {
        self.out.extend_from_slice(element.end.as_bytes());
    }

    /// An element of characters.
    fn leaf(&mut self, element: &Element, content: &str) {
        self.start(element);
        for &byte in content.as_bytes() {
            match byte {
                b'<' => self.out.extend_from_slice(b"&lt;"),
                b'>' => self.out.extend_from_slice(b"&gt;"),
                b'&' => self.out.extend_from_slice(b"&amp;"),
                b'\t' | b'\n' | b'\r' | b' ' => self.out.extend_from_slice("\u{a0}".as_bytes()),
                0..32 => self.refused = true,
                _ => self.out.push(byte),
            }
        }
        self.end(element);
    }

    fn root(&mut self, root: &Expression) {
        self.start(&MATH);
        self.items(root);
        self.end(&MATH);
    }

    fn items(&mut self, items: &Expression) {
        for item in items.iter() {
            match item {
                Intermediate::ScriptFunc(part) => self.script_func(Mode::Keep, part),
                Intermediate::Frac(frac) => {
                    self.start(&MFRAC);
                    self.script_func(Mode::Argument, &frac.numer);
                    self.script_func(Mode::Argument, &frac.denom);
                    self.end(&MFRAC);
                }
                Intermediate::Space(space) => {
                    // the one part of the text with such bytes that `leaf` doesn't see
                    let blank = |byte| matches!(byte, b'\t' | b'\n' | b'\r' | b' ');
                    self.refused |= !space.bytes().all(blank);
                    self.leaf(&MSPACE, "");
                }
            }
        }
    }

    fn script_func(&mut self, mode: Mode, part: &ScriptFunc) {
        match part {
            ScriptFunc::Simple(part) => {
                let mode = match part.script {
                    Script::None => mode,
                    _ => Mode::Keep,
                };
                self.scripted(&part.script, |writer| writer.simple(mode, &part.simple));
            }
            ScriptFunc::Func(func) => self.func(func),
            ScriptFunc::Signed(signed) => {
                self.start(&MROW);
                self.leaf(&MO, shown(signed.sign));
                self.script_func(Mode::Keep, &signed.operand);
                self.end(&MROW);
            }
        }
    }

    fn func(&mut self, func: &Func) {
        self.start(&MROW);
        self.scripted(&func.script, |writer| writer.leaf(&MI, func.func));
        self.application(func.func);
        self.script_func(Mode::Keep, &func.arg);
        self.end(&MROW);
    }

    /// The invisible operator between a function's name and its argument.
    fn application(&mut self, name: &str) {
        let element = if name.len() == 1 { &MO } else { &THIN_MO };
        self.leaf(element, "\u{2061}");
    }

    /// A base with its scripts; without any it stands alone.
    fn scripted(&mut self, script: &Script, base: impl FnOnce(&mut Self)) {
        let element = match script {
            Script::None => return base(self),
            Script::Sub(_) => &MSUB,
            Script::Super(_) => &MSUP,
            Script::Subsuper(..) => &MSUBSUP,
        };
        self.start(element);
        base(self);
        for part in [script.sub(), script.sup()].into_iter().flatten() {
            self.simple(Mode::Argument, part);
        }
        self.end(element);
    }

    fn simple(&mut self, mode: Mode, simple: &Simple) {
        match simple {
            Simple::Missing => self.leaf(&MROW, ""),
            Simple::Number(part) => self.leaf(&MN, part),
            Simple::Text(part) => self.leaf(&MTEXT, part),
            Simple::Ident(part) => self.leaf(&MI, part),
            Simple::Operator(part) => self.leaf(&MO, part),
            Simple::Symbol(symbol) => {
                let element = match symbol.class {
                    SymbolClass::Glyph | SymbolClass::Name | SymbolClass::Space => &CLOSE_MO,
                    _ => &MO,
                };
                self.leaf(element, shown(symbol.text));
            }
            Simple::Sign(part) => self.leaf(&MO, shown(part)),
            Simple::Signed(signed) => {
                self.start(&MROW);
                self.leaf(&MO, shown(signed.sign));
                self.simple(Mode::Keep, &signed.operand);
                self.end(&MROW);
            }
            Simple::Unary(command) => self.unary(command),
            Simple::Func(func) => {
                self.start(&MROW);
                self.leaf(&MI, func.func);
                self.application(func.func);
                self.simple(Mode::Keep, &func.arg);
                self.end(&MROW);
            }
            Simple::Binary(command) => self.binary(command),
            Simple::Group(group) => self.group(mode, group),
            Simple::Matrix(matrix) => self.matrix(matrix),
        }
    }

    fn unary(&mut self, command: &SimpleUnary) {
        if let Some((element, left, right)) = unary(command.op) {
            self.start(&element);
            self.bracket(left);
            self.simple(Mode::Argument, &command.arg);
            self.bracket(right);
            self.end(&element);
        } else if matches!(command.op, "text" | "mbox") {
            self.simple(Mode::Text, &command.arg);
        } else {
            // a font
            self.refused = true;
        }
    }

    fn binary(&mut self, command: &SimpleBinary) {
        let (mut one, mut other) = (command.first(), command.second());
        let element = match command.op {
            "frac" => &MFRAC,
            "root" => &MROOT,
            "stackrel" | "overset" => &MOVER,
            "underset" => &MUNDER,
            // color, id, class
            _ => {
                self.refused = true;
                return;
            }
        };
        // the base comes first, what stands at it second
        if command.op != "frac" {
            (one, other) = (other, one);
        }
        self.start(element);
        self.simple(Mode::Argument, one);
        self.simple(Mode::Argument, other);
        self.end(element);
    }

    /// A bracket or mark in its form; nothing for one that has no characters.
    fn bracket(&mut self, shown: &str) {
        if !shown.is_empty() {
            self.leaf(&MO, shown);
        }
    }

    fn group(&mut self, mode: Mode, group: &Group) {
        let (left, right) = (group.left_bracket, group.right_bracket);
        self.start(&MROW);
        if mode.drops(left, right) {
            self.items(&group.expr);
        } else {
            self.bracket(shown(left));
            self.items(&group.expr);
            self.bracket(shown(right));
        }
        self.end(&MROW);
    }

    fn matrix(&mut self, matrix: &Matrix) {
        self.start(&MROW);
        self.bracket(shown(matrix.left_bracket));
        self.table(matrix);
        self.bracket(shown(matrix.right_bracket));
        self.end(&MROW);
    }

    fn table(&mut self, matrix: &Matrix) {
        let (lines, cols) = (matrix.column_lines(), matrix.num_cols());
        let at_edge = |&line: &usize| line == 0 || line == cols;
        // the lines are in order
        let twice = |pair: &[usize]| pair[0] == pair[1];
        self.refused |= lines.iter().any(at_edge) || lines.windows(2).any(twice);

        self.out.extend_from_slice(b"<mtable");
        let mut before: &[u8] = b" columnlines=\"";
        for boundary in 1..cols {
            self.out.extend_from_slice(before);
            before = b" ";
            let line: &[u8] = if lines.binary_search(&boundary).is_ok() {
                b"solid"
            } else {
                b"none"
            };
            self.out.extend_from_slice(line);
        }
        self.out
            .extend_from_slice(if cols > 1 { b"\">" } else { b">" });
        for row in matrix.rows() {
            self.start(&MTR);
            for cell in row {
                self.start(&MTD);
                self.items(cell);
                self.end(&MTD);
            }
            self.end(&MTR);
        }
        self.out.extend_from_slice(b"</mtable>");
    }
}
