//! The strings of document 01, the refusals, and trees of every kind.

use asciimath::tree::{Expression, Intermediate, Matrix, Script, ScriptFunc, Simple};
use asciimath::{
    Reader, Refusal, SymbolClass, Token, Tokenizer, borrowed, decode, parse, parse_tokens, read,
    read_tokens,
};

/// A short form of a tree: each node's name and parts, in brackets.
fn short(tree: &Expression) -> String {
    let items: Vec<_> = tree.iter().map(item).collect();
    items.join(" ")
}

fn item(item: &Intermediate) -> String {
    match item {
        Intermediate::ScriptFunc(part) => script_func(part),
        Intermediate::Frac(frac) => {
            format!(
                "frac[{} {}]",
                script_func(&frac.numer),
                script_func(&frac.denom)
            )
        }
        Intermediate::Space(space) => format!("space{space:?}"),
    }
}

fn script_func(part: &ScriptFunc) -> String {
    match part {
        ScriptFunc::Simple(part) => simple(&part.simple) + &script(part),
        ScriptFunc::Func(func) => {
            format!(
                "func[{}{} {}]",
                func.func,
                script(func),
                script_func(func.arg())
            )
        }
        ScriptFunc::Signed(signed) => {
            format!("signed[{} {}]", signed.sign, script_func(signed.operand()))
        }
    }
}

fn script(script: &Script) -> String {
    let sub = script
        .sub()
        .map_or(String::new(), |sub| "_".to_owned() + &simple(sub));
    sub + &script
        .sup()
        .map_or(String::new(), |sup| "^".to_owned() + &simple(sup))
}

fn simple(part: &Simple) -> String {
    match part {
        Simple::Missing => "missing".into(),
        Simple::Number(text) | Simple::Ident(text) => text.to_string(),
        Simple::Text(text) => format!("{text:?}"),
        Simple::Operator(text) => format!("operator[{text}]"),
        Simple::Symbol(symbol) => format!("{:?}[{}]", symbol.class, symbol.text),
        Simple::Sign(text) => format!("sign[{text}]"),
        Simple::Signed(part) => format!("ssigned[{} {}]", part.sign, simple(part.operand())),
        Simple::Unary(part) => format!("unary[{} {}]", part.op, simple(part.arg())),
        Simple::Func(part) => format!("sfunc[{} {}]", part.func, simple(part.arg())),
        Simple::Binary(part) => {
            format!(
                "binary[{} {} {}]",
                part.op,
                simple(part.first()),
                simple(part.second())
            )
        }
        Simple::Group(group) => {
            let (left, right) = (&group.left_bracket, &group.right_bracket);
            format!("group[{left}|{}|{right}]", short(&group.expr))
        }
        Simple::Matrix(matrix) => {
            let rows: Vec<_> = matrix
                .rows()
                .map(|row| row.iter().map(short).collect::<Vec<_>>().join(";"))
                .collect();
            let (left, right) = (&matrix.left_bracket, &matrix.right_bracket);
            format!("matrix[{left}|{}|{right}]", rows.join("/"))
        }
    }
}

fn tokens(text: &str) -> Vec<(&str, Token)> {
    Tokenizer::new(text).unwrap().collect()
}

/// The only item of a tree, a matrix.
fn matrix(tree: &Expression) -> &Matrix {
    match &tree[..] {
        [Intermediate::ScriptFunc(ScriptFunc::Simple(part))] => match &part.simple {
            Simple::Matrix(matrix) => matrix,
            other => panic!("{other:?}"),
        },
        other => panic!("{other:?}"),
    }
}

#[test]
fn tokens_of_strings() {
    use Token::*;
    assert_eq!(tokens(""), []);
    let dots = [("1.", Number), (".", Operator), (".", Operator)];
    assert_eq!(tokens("1..."), dots);
    assert_eq!(tokens("\\"), [("\\", Symbol(SymbolClass::Joining))]);
    assert_eq!(
        tokens("text (a b)c"),
        [
            ("text", Unary),
            ("(", OpenBracket),
            ("a b", Text),
            (")", CloseBracket),
            ("c", Ident)
        ]
    );
    assert_eq!(tokens("text(")[2], ("", Text));
    let quote = [("\"", Operator), ("a", Ident), ("b", Ident)];
    assert_eq!(tokens("\"ab"), quote);
    assert_eq!(Tokenizer::new("a b").unwrap().len(), 3);
}

#[test]
fn trees_of_strings() {
    for (text, tree) in [
        ("", ""),
        ("x^2/3", "frac[x^2 3]"),
        ("|x|", "group[||x||]"),
        ("x^", "x^missing"),
        ("(a", "group[(|a|]"),
        ("a)b", "group[|a|)] b"),
        ("a - -b", "a space\" \" sign[-] space\" \" signed[- b]"),
        ("x_1^-2", "x_1^ssigned[- 2]"),
        ("sin^2 x", "func[sin^2 x]"),
        (
            "sqrt sin root 3 y",
            "unary[sqrt sfunc[sin binary[root 3 y]]]",
        ),
        ("\"t u\"?=", "\"t u\" operator[?] Joining[=]"),
        (
            "{(a,b),(c,d)}",
            "group[{|group[(|a Separator[,] b|)] Separator[,] group[(|c Separator[,] d|)]|}]",
        ),
        ("[[1,2],[3,4]]", "matrix[[|1;2/3;4|]]"),
    ] {
        assert_eq!(short(&parse(text).unwrap()), tree, "{text}");
    }
}

#[test]
fn matrices() {
    let tree = parse("[(a,|,b),(c,|,d)]").unwrap();
    let lined = matrix(&tree);
    assert_eq!(
        (lined.num_cols(), lined.num_rows(), lined.num_cells()),
        (2, 2, 4)
    );
    assert_eq!(lined.column_lines(), [1]);
    assert_eq!(short(&lined[[0, 1]]), "c");
    assert_eq!(lined[0].iter().map(short).collect::<Vec<_>>(), ["a", "b"]);
    assert_eq!(lined.rows().len(), 2);
}

#[test]
fn beside_the_tree() {
    let reading = read("[[1,2],[3,4]]").unwrap();
    assert_eq!(
        (reading.tokens, reading.takes, reading.blank),
        (13, 34, false)
    );
    let empty = read(" ").unwrap();
    assert_eq!(
        (empty.tree.len(), empty.tokens, empty.takes, empty.blank),
        (0, 1, 0, true)
    );
}

#[test]
fn token_lists() {
    for text in ["", "x^2/3", "[[1,2],[3,4]] text(a)", "| a | )"] {
        assert_eq!(parse_tokens(text, tokens(text)), parse(text), "{text}");
    }
    // tokens of the caller's own: spans may overlap and be empty
    let text = "ab";
    let list = [(&text[..2], Token::Ident), (&text[1..1], Token::Number)];
    assert_eq!(short(&parse_tokens(text, list).unwrap()), "ab ");
}

#[test]
fn refusals() {
    assert_eq!(parse(&"a".repeat(4097)), Err(Refusal::LONG_TEXT));
    assert!(parse(&"a".repeat(4096)).is_ok());
    assert_eq!(parse("π"), Err(Refusal::NOT_ASCII));
    assert!(Tokenizer::new("é").is_err());
    let text = "a b";
    let many = vec![(&text[..1], Token::Ident); 4097];
    let refused = |list: &[(&str, Token)]| parse_tokens(text, list.iter().copied()).unwrap_err();
    assert_eq!(refused(&many), Refusal::TOKEN_COUNT);
    assert_eq!(refused(&[("elsewhere", Token::Ident)]), Refusal::TOKEN_SPAN);
    let (blank, empty) = ((&text[1..2], Token::Space), (&text[1..1], Token::Space));
    assert_eq!(refused(&[blank, empty]), Refusal::DOUBLE_SPACE);
    assert!(parse_tokens(text, [empty, blank]).is_ok());
    assert_eq!(Refusal::NOT_ASCII.number(), 2);
    let shown = Refusal::NOT_ASCII.to_string();
    assert_eq!(shown, "refused (2): a byte of the text is 128 or more");
}

#[test]
fn numbers_of_tokens() {
    for number in 0..24 {
        assert_eq!(Token::of_number(number).unwrap().number(), number);
    }
    assert_eq!(Token::of_number(24), None);
    assert_eq!(Token::Symbol(SymbolClass::Separator).number(), 15);
}

#[test]
fn printed() {
    let lines = "text=5 tokens=5 takes=7 items=1\n\
        depth=0 node=frac\n\
        depth=1 node=simple script=super\n\
        depth=2 node=ident at=0 len=1\n\
        depth=2 node=number at=2 len=1\n\
        depth=1 node=simple script=none\n\
        depth=2 node=number at=4 len=1\n";
    assert_eq!(asciimath::print("x^2/3").unwrap(), lines);
    assert_eq!(asciimath::print("π"), Err(Refusal::NOT_ASCII));
}

#[test]
fn a_reader_is_used_again() {
    let long = "[[1,2],[3,4]] ".repeat(200);
    let mut reader = Reader::new();
    for text in [
        "",
        &long,
        "x",
        "π",
        "(a",
        &"1".repeat(4097),
        &long,
        " ",
        "x^2/3",
    ] {
        let fresh = Reader::new().read(text);
        assert_eq!(reader.read(text), fresh);
        assert_eq!(read(text), fresh);
        assert_eq!(reader.print(text), Reader::new().print(text));
        let Ok(tokens) = reader.tokenizer(text) else {
            continue;
        };
        assert_eq!(reader.read_tokens(text, tokens.clone()), fresh);
        assert_eq!(read_tokens(text, tokens), fresh);
    }
}

#[test]
fn tokens_that_are_read_while_others_are() {
    let text = "a b";
    let list = tokens(text).into_iter().inspect(|(part, _)| {
        assert_eq!(short(&parse(part).unwrap()), part.trim());
    });
    assert_eq!(parse_tokens(text, list), parse(text));
}

#[test]
fn borrowed_trees() {
    let text = "sin^2 x_1/2 - [(a,|,b),(c,|,1234567890)] varepsilon";
    let tree = borrowed::parse(text).unwrap();
    // no other type, so their prints are compared
    assert_eq!(format!("{tree:?}"), format!("{:?}", parse(text).unwrap()));
    assert_eq!(borrowed::parse_tokens(text, tokens(text)).unwrap(), tree);
    let Some(Intermediate::ScriptFunc(ScriptFunc::Simple(last))) = tree.last() else {
        panic!()
    };
    let Simple::Symbol(symbol) = &last.simple else {
        panic!()
    };
    assert_eq!(symbol.text.as_ptr(), text[text.len() - 10..].as_ptr());
    assert_eq!(borrowed::parse("π"), Err(Refusal::NOT_ASCII));
}

#[test]
fn parts_of_every_length() {
    let digits = "1234567890".repeat(4);
    let numbers: Vec<_> = (1..=40).map(|len| &digits[..len]).collect();
    let text = "()".to_owned() + &numbers.join(" ");
    let tree = parse(&text).unwrap();
    let found: Vec<_> = tree
        .iter()
        .filter_map(|item| match item {
            Intermediate::ScriptFunc(ScriptFunc::Simple(part)) => match &part.simple {
                Simple::Number(number) => Some(number.clone()),
                _ => None,
            },
            _ => None,
        })
        .collect();
    drop(tree);
    assert_eq!(found, numbers);
    assert_eq!(found[6].to_string() + &found[7], "123456712345678");
    assert_eq!(found[0], found[0].clone());
    assert_ne!(found[0], found[1]);
    assert_eq!(format!("{:?}", found[8]), "\"123456789\"");
}

#[test]
fn readings_go_between_threads() {
    let text = "twoheadrightarrowtail[[1,2],[3,4]]";
    let there = std::thread::spawn(move || read(text)).join().unwrap();
    let shared: &(dyn Send + Sync) = &there;
    let _ = shared;
    assert_eq!(there, read(text));
    assert_eq!(there.unwrap().clone().tokens, 14);
}

/// As deep as a tree can be: 256 groups of closers around matrices in fractions in cells.
fn deepest() -> String {
    "[(a,1/".repeat(127) + "x" + &")]".repeat(127) + &")".repeat(256)
}

#[test]
fn deep_trees_need_little_stack() {
    let run = || {
        let tree = parse(&deepest()).unwrap();
        assert!(tree == parse(&deepest()).unwrap());
    };
    let small = std::thread::Builder::new().stack_size(1 << 19);
    small.spawn(run).unwrap().join().unwrap();
}

/// A number that seems random, from one that does.
fn next(seed: &mut u64) -> usize {
    *seed = seed.wrapping_mul(6364136223846793005).wrapping_add(1);
    (*seed >> 33) as usize
}

#[test]
fn words_that_are_no_tree() {
    let text = "sin^2 x_1/2-[(a,|,b),(c,|,d)] (x) root 3 ? |y|";
    let mut buffers = (vec![0; 150], vec![0; 200], vec![0; 3200], [0; 4]);
    let (table, work, tree, answer) = &mut buffers;
    let code = asciimath::calls::parse(text.as_bytes(), table, work, tree, answer);
    assert_eq!(code, 0);
    let items = answer[2] as usize;
    let (_, end) = decode::<&str>(text, tree, items).unwrap();
    let mut seed = 1;
    for _ in 0..20_000 {
        let mut words = tree[..end].to_vec();
        for _ in 0..1 + next(&mut seed) % 3 {
            let at = next(&mut seed) % end;
            words[at] = [0, 1, 2, 3, 13, 15, 16, 17, 18, 40, u32::MAX][next(&mut seed) % 11];
        }
        words.truncate(end - next(&mut seed) % 2);
        // any answer will do, but it must come
        let _ = decode::<&str>(text, &words, items + next(&mut seed) % 2);
    }
    assert!(decode::<&str>(text, &tree[..end - 1], items).is_none());
    assert!(decode::<&str>("", &tree[..end], items).is_none());
    assert!(decode::<&str>(text, &[], usize::MAX).is_none());
}

#[test]
fn words_that_claim_too_much() {
    // groups in groups, each of which claims as many items as the words behind it could be
    let group = |items: u32| [0, 13, 0, 0, 0, 0, 0, 15, 0, 0, items, 0, 0];
    let words: Vec<u32> = (1..10_000).rev().flat_map(group).collect();
    assert!(decode::<&str>("", &words, 1).is_none());
    let words: Vec<u32> = [group(1); 9999].concat();
    assert!(decode::<&str>("", &words, 1).is_none());
}
