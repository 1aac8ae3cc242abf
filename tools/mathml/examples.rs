//! The whole answers of a page of examples, replayed through writer.rs.
//!
//!     examples PAGE
//!
//! PAGE is docs/mathml-examples.txt: a text on a line (`\t`, `\n`, `\r` and `\x..` for the bytes below 32),
//! below it, behind four blanks, its MathML or `refused=` with a number. Exit status 1 on a difference.

mod writer;

/// The text of its line.
fn text_of(line: &str) -> String {
    let (mut text, mut rest) = (String::new(), line);
    while let Some(first) = rest.chars().next() {
        let hex = rest.strip_prefix("\\x").and_then(|hex| hex.get(..2));
        let (byte, length) = match (rest.get(..2), hex) {
            (Some("\\t"), _) => ('\t', 2),
            (Some("\\n"), _) => ('\n', 2),
            (Some("\\r"), _) => ('\r', 2),
            (_, Some(hex)) => (u8::from_str_radix(hex, 16).expect("hex digits").into(), 4),
            _ => (first, first.len_utf8()),
        };
        text.push(byte);
        rest = &rest[length..];
    }
    text
}

fn main() {
    let path = std::env::args().nth(1).expect("examples PAGE");
    let page = std::fs::read_to_string(path).expect("a page");
    let lines: Vec<&str> = page.lines().collect();
    let (mut agree, mut differ) = (0, 0);
    for pair in lines.windows(2) {
        let Some(right) = pair[1].strip_prefix("    ") else {
            continue;
        };
        let mut out = Vec::new();
        let given = match writer::mathml(&text_of(pair[0]), &mut out) {
            Ok(()) => String::from_utf8(out).expect("UTF-8"),
            Err(number) => format!("refused={number}"),
        };
        if given == right {
            agree += 1;
        } else {
            differ += 1;
            println!("{}\n  is    {given}\n  page  {right}", pair[0]);
        }
    }
    println!("{agree} agree, {differ} differ");
    std::process::exit(i32::from(differ > 0 || agree == 0));
}
