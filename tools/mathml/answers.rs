//! Puts writer.rs's MathML behind each line: `text<TAB>note` becomes `text<TAB>note<TAB>mathml`, for
//! page.py. A text that is refused stops it.
//!
//!     answers < docs/gallery-formulas.txt | page.py > page.html

mod writer;

use std::io::{Write, stdin, stdout};

fn main() {
    let mut out = stdout().lock();
    for line in stdin().lines() {
        let line = line.expect("a line");
        let text = line.split('\t').next().unwrap_or("");
        let mut mathml = Vec::new();
        if let Err(number) = writer::mathml(text, &mut mathml) {
            panic!("{text}: refused={number}");
        }
        let row = [line.as_bytes(), b"\t", &mathml, b"\n"].concat();
        out.write_all(&row).expect("room for the answer");
    }
}
