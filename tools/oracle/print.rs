//! The printed tree of document 01.
//!
//! The module around this one says whose tree it is: `tree` is asciimath-parser's, or another with
//! the same names; `kinds` is kinds.rs.

use super::kinds::start;
use super::tree::{Expression, Intermediate, Script, ScriptFunc, Simple};
use std::fmt::Write;

/// The whole print, first line included.
pub fn printed(text: &str, tokens: usize, takes: u64, root: &Expression) -> String {
    let (bytes, items) = (text.len(), root.len());
    let out = format!("text={bytes} tokens={tokens} takes={takes} items={items}\n");
    let mut print = Print { text, out };
    print.expression(0, root);
    print.out
}

struct Print<'a> {
    text: &'a str,
    out: String,
}

impl Print<'_> {
    fn line(&mut self, depth: usize, node: &str, fields: &str) {
        let space = if fields.is_empty() { "" } else { " " };
        writeln!(self.out, "depth={depth} node={node}{space}{fields}").unwrap();
    }

    fn at(&self, part: &str) -> String {
        format!("at={} len={}", start(self.text, part), part.len())
    }

    fn brackets(&self, left: &str, right: &str) -> String {
        format!(
            "{} rat={} rlen={}",
            self.at(left),
            start(self.text, right),
            right.len()
        )
    }

    fn expression(&mut self, depth: usize, expr: &Expression) {
        for item in expr.iter() {
            match item {
                Intermediate::ScriptFunc(part) => self.script_func(depth, part),
                Intermediate::Frac(frac) => {
                    self.line(depth, "frac", "");
                    self.script_func(depth + 1, &frac.numer);
                    self.script_func(depth + 1, &frac.denom);
                }
                Intermediate::Space(space) => self.line(depth, "space", &self.at(space)),
            }
        }
    }

    fn script_func(&mut self, depth: usize, part: &ScriptFunc) {
        match part {
            ScriptFunc::Simple(part) => {
                self.line(depth, "simple", &script_field(&part.script));
                self.simple(depth + 1, &part.simple);
                self.scripts(depth + 1, &part.script);
            }
            ScriptFunc::Func(func) => {
                let fields = format!("{} {}", self.at(func.func), script_field(&func.script));
                self.line(depth, "func", &fields);
                self.scripts(depth + 1, &func.script);
                self.script_func(depth + 1, &func.arg);
            }
            ScriptFunc::Signed(signed) => {
                self.line(depth, "signed", &self.at(signed.sign));
                self.script_func(depth + 1, &signed.operand);
            }
        }
    }

    fn scripts(&mut self, depth: usize, script: &Script) {
        for part in [script.sub(), script.sup()].into_iter().flatten() {
            self.simple(depth, part);
        }
    }

    fn simple(&mut self, depth: usize, simple: &Simple) {
        match simple {
            Simple::Missing => self.line(depth, "missing", ""),
            Simple::Number(part) => self.line(depth, "number", &self.at(part)),
            Simple::Text(part) => self.line(depth, "text", &self.at(part)),
            Simple::Ident(part) => self.line(depth, "ident", &self.at(part)),
            Simple::Operator(part) => self.line(depth, "operator", &self.at(part)),
            Simple::Symbol(symbol) => {
                let class = symbol.class as usize;
                self.line(
                    depth,
                    "symbol",
                    &format!("{} class={class}", self.at(symbol.text)),
                );
            }
            Simple::Sign(part) => self.line(depth, "sign", &self.at(part)),
            Simple::Signed(signed) => {
                self.line(depth, "ssigned", &self.at(signed.sign));
                self.simple(depth + 1, &signed.operand);
            }
            Simple::Unary(unary) => {
                self.line(depth, "unary", &self.at(unary.op));
                self.simple(depth + 1, &unary.arg);
            }
            Simple::Func(func) => {
                self.line(depth, "sfunc", &self.at(func.func));
                self.simple(depth + 1, &func.arg);
            }
            Simple::Binary(binary) => {
                self.line(depth, "binary", &self.at(binary.op));
                self.simple(depth + 1, &binary.first);
                self.simple(depth + 1, &binary.second);
            }
            Simple::Group(group) => {
                let brackets = self.brackets(group.left_bracket, group.right_bracket);
                self.line(
                    depth,
                    "group",
                    &format!("{brackets} items={}", group.expr.len()),
                );
                self.expression(depth + 1, &group.expr);
            }
            Simple::Matrix(matrix) => {
                let brackets = self.brackets(matrix.left_bracket, matrix.right_bracket);
                let (cols, cells) = (matrix.num_cols(), matrix.num_cells());
                let lines: Vec<_> = matrix.column_lines().iter().map(usize::to_string).collect();
                let lines = if lines.is_empty() {
                    "none".into()
                } else {
                    lines.join(",")
                };
                self.line(
                    depth,
                    "matrix",
                    &format!("{brackets} cols={cols} cells={cells} lines={lines}"),
                );
                for cell in matrix.rows().flatten() {
                    self.line(depth + 1, "cell", &format!("items={}", cell.len()));
                    self.expression(depth + 2, cell);
                }
            }
        }
    }
}

fn script_field(script: &Script) -> String {
    let name = match script {
        Script::None => "none",
        Script::Sub(_) => "sub",
        Script::Super(_) => "super",
        Script::Subsuper(..) => "subsuper",
    };
    format!("script={name}")
}
