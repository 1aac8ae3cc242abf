//! Compares the library's MathML with that of writer.rs, both in this process.
//!
//!     compare SEED TEXTS [ANSWERS]
//!
//! TEXTS has a text in hex on each line. Each is read in a few situations: buffers just long enough, the
//! output a byte shorter, everything longer, too short in one or another; and now and then with damage that
//! is to be refused. The buffers of the reading are compared with those of asciimath_parse. Everything is
//! decided by the seed. ANSWERS gets a line for each text: it in hex, a tab, and its MathML or
//! `refused=` and a number, as the library answered.

#[path = "../compare/guarded.rs"]
mod guarded;
#[allow(dead_code)]
#[path = "../compare/predict.rs"]
mod predict;
mod writer;

use asciimath_parser::{Token, Tokenizer};
use guarded::{Guarded, Random};
use predict::{Lent, TREE, WORK};
use std::fs::File;
use std::io::{BufRead, BufReader, BufWriter, Write};
use std::time::{Duration, Instant};

unsafe extern "C" {
    fn asciimath_parse(
        text: *const u8,
        text_len: usize,
        table: *mut u32,
        table_len: usize,
        work: *mut u32,
        work_len: usize,
        tree: *mut u32,
        tree_len: usize,
        answer: *mut u64,
        answer_len: usize,
    ) -> u32;

    fn asciimath_mathml(
        text: *const u8,
        text_len: usize,
        table: *mut u32,
        table_len: usize,
        work: *mut u32,
        work_len: usize,
        tree: *mut u32,
        tree_len: usize,
        out: *mut u8,
        out_len: usize,
        answer: *mut u64,
        answer_len: usize,
    ) -> u32;
}

/// So many differences are shown, each made as small as it can be.
const SHOWN: u64 = 5;

/// Nothing, or a difference in words.
type Checked = Result<(), String>;

/// How often the call answered 0 and each refusal.
type Tally = [u64; 13];

fn expect(holds: bool, what: &str) -> Checked {
    if holds { Ok(()) } else { Err(what.into()) }
}

/// What is known of a text.
struct Known {
    tokens: usize,
    /// The tokens other than Space.
    others: usize,
    /// The MathML or its refusal; empty for a text that is refused by itself.
    mathml: Result<Vec<u8>, u8>,
}

fn known(text: &[u8]) -> Known {
    if predict::text(text, 0, 0, 0, &Lent::default()) != 0 {
        return Known {
            tokens: 40,
            others: 40,
            mathml: Ok(Vec::new()),
        };
    }
    let text = str::from_utf8(text).expect("ASCII");
    let tokens: Vec<_> = Tokenizer::new(text).map(|(_, token)| token).collect();
    let others = tokens.iter().filter(|&&token| token != Token::Space);
    let mut out = Vec::new();
    Known {
        tokens: tokens.len(),
        others: others.count(),
        mathml: writer::mathml(text, &mut out).map(|()| out),
    }
}

/// By how much each buffer is longer than needed, or shorter if below 0, and the words of the answer.
#[derive(Clone, Copy, Debug)]
struct Situation {
    table: isize,
    work: isize,
    tree: isize,
    out: isize,
    /// For the output what is needed by any text of as many bytes, not by this one.
    most: bool,
    answer: usize,
    /// The words in the buffers come from it.
    seed: u64,
}

/// Just enough; the output a byte short; all longer; an output for any text; one buffer of the reading
/// short; anything.
fn situations(random: &mut Random) -> [Situation; 6] {
    let mut plain = || Situation {
        table: 0,
        work: 0,
        tree: 0,
        out: 0,
        most: false,
        answer: 5,
        seed: random.next(),
    };
    let (enough, mut out_short, mut longer) = (plain(), plain(), plain());
    let (mut for_any, mut one_short, mut any) = (plain(), plain(), plain());
    out_short.out = -1;
    longer.table = random.below(40) as isize;
    longer.work = random.below(40) as isize;
    longer.tree = random.below(300) as isize;
    longer.out = 1 + random.below(300) as isize;
    longer.answer = random.below(5);
    for_any.most = true;
    for_any.out = random.pick(&[0, -1, 1, 300]);
    match random.below(3) {
        0 => one_short.table = -1,
        1 => one_short.work = -1,
        _ => one_short.tree = -1,
    }
    one_short.out = random.pick(&[0, -1, 9]);
    let mut more = || match random.below(8) {
        0 => -(random.below(40) as isize),
        1 => isize::MIN,
        _ => random.below(300) as isize,
    };
    (any.table, any.work, any.tree) = (more(), more(), more());
    any.out = random.pick(&[0, 1, -1, -9, -70, -300, isize::MIN]);
    any.answer = random.below(6);
    [enough, out_short, longer, for_any, one_short, any]
}

/// The bytes that are enough for the MathML of any text of as many bytes.
fn most_bytes(text: &[u8]) -> usize {
    72 + 48 * text.len()
}

/// The buffers of a call.
struct Room {
    text: Guarded<u8>,
    table: Guarded<u32>,
    work: Guarded<u32>,
    tree: Guarded<u32>,
    out: Guarded<u8>,
    answer: Guarded<u64>,
}

impl Room {
    /// The same words each time.
    fn new(text: &[u8], known: &Known, situation: &Situation) -> Self {
        let random = &mut Random(situation.seed);
        let (word, byte) = (|word| word as u32, |word| word as u8);
        let length = |needed: usize, more| needed.saturating_add_signed(more);
        let out = match &known.mathml {
            _ if situation.most => most_bytes(text),
            Ok(mathml) => mathml.len(),
            Err(_) => 100,
        };
        Room {
            text: Guarded::of(text, random, byte),
            table: Guarded::random(length(3 * known.tokens, situation.table), random, word),
            work: Guarded::random(
                length(WORK * (known.others + 1), situation.work),
                random,
                word,
            ),
            tree: Guarded::random(
                length(TREE * (known.others + 1), situation.tree),
                random,
                word,
            ),
            out: Guarded::random(length(out, situation.out), random, byte),
            answer: Guarded::random(situation.answer, random, |word| word),
        }
    }

    fn parse(&mut self, answer: &mut [u64]) -> u32 {
        let (table, work, tree) = (self.table.lent(), self.work.lent(), self.tree.lent());
        unsafe {
            asciimath_parse(
                self.text.now().as_ptr(),
                self.text.now().len(),
                table.as_mut_ptr(),
                table.len(),
                work.as_mut_ptr(),
                work.len(),
                tree.as_mut_ptr(),
                tree.len(),
                answer.as_mut_ptr(),
                answer.len(),
            )
        }
    }

    fn mathml(&mut self) -> u32 {
        let (table, work, tree) = (self.table.lent(), self.work.lent(), self.tree.lent());
        let (out, answer) = (self.out.lent(), self.answer.lent());
        unsafe {
            asciimath_mathml(
                self.text.now().as_ptr(),
                self.text.now().len(),
                table.as_mut_ptr(),
                table.len(),
                work.as_mut_ptr(),
                work.len(),
                tree.as_mut_ptr(),
                tree.len(),
                out.as_mut_ptr(),
                out.len(),
                answer.as_mut_ptr(),
                answer.len(),
            )
        }
    }

    /// The reading's refusal, or 0, by the sentences of document 01.
    fn reading(&self, known: &Known) -> u32 {
        let lent = Lent {
            table: Some(self.table.now().len()),
            work: Some(self.work.now().len()),
            tree: Some(self.tree.now().len()),
            ..Lent::default()
        };
        predict::text(self.text.now(), known.tokens, known.others, 0, &lent)
    }

    /// The refusal of the whole call, or 0.
    fn predicted(&self, known: &Known) -> u32 {
        match (self.reading(known), &known.mathml) {
            (0, Err(number)) => (*number).into(),
            (0, Ok(mathml)) if self.out.now().len() < mathml.len() => 12,
            (number, _) => number,
        }
    }

    /// Nothing of the output and of the answer is written.
    fn nothing_written(&self) -> Checked {
        expect(self.text.same(), "the text changed")?;
        expect(self.out.same(), "the output changed")?;
        expect(self.answer.same(), "the answer changed")
    }

    fn nothing_read(&self) -> Checked {
        expect(self.table.same(), "the table changed")?;
        expect(self.work.same(), "work changed")?;
        expect(self.tree.same(), "the tree changed")
    }

    /// The MathML, behind it the bytes as before; the values, as many as there are words for.
    fn has_mathml(&self, mathml: &[u8], values: &[u64]) -> Checked {
        expect(self.text.same(), "the text changed")?;
        let given = &self.out.now()[..mathml.len()];
        if given != mathml {
            let at = given.iter().zip(mathml).take_while(|(a, b)| a == b).count();
            let part = |bytes: &[u8]| {
                let end = bytes.len().min(at + 60);
                String::from_utf8_lossy(&bytes[at.saturating_sub(30)..end]).into_owned()
            };
            return Err(format!(
                "the MathML has at {at} {:?}, not {:?}",
                part(given),
                part(mathml)
            ));
        }
        expect(self.out.same_from(mathml.len()), "bytes around the MathML")?;
        let known = values.len().min(self.answer.now().len());
        let given = &self.answer.now()[..known];
        if given != &values[..known] {
            return Err(format!("the answer is {given:?}, not {values:?}"));
        }
        expect(self.answer.same_from(known), "words around the answer")
    }

    /// The buffers of the reading are as another call left them.
    fn read_as(&self, other: &Room) -> Checked {
        expect(self.table.now() == other.table.now(), "another table")?;
        expect(self.work.now() == other.work.now(), "other work words")?;
        expect(self.tree.now() == other.tree.now(), "another tree")?;
        expect(self.table.same_around(), "words around the table")?;
        expect(self.work.same_around(), "words around work")?;
        expect(self.tree.same_around(), "words around the tree")
    }
}

/// One text in one situation: the refusal, or 0.
fn check(text: &[u8], known: &Known, situation: &Situation) -> Result<u32, String> {
    let mut parsed = Room::new(text, known, situation);
    let mut room = Room::new(text, known, situation);
    // tokens, takes, items, blank
    let mut values = [0; 4];
    let reading = parsed.parse(&mut values);
    expect(reading == parsed.reading(known), "the reading's refusal")?;
    let code = room.mathml();
    let expected = room.predicted(known);
    if code != expected {
        return Err(format!("the code is {code}, not {expected}"));
    }
    match (code, &known.mathml) {
        (0, Ok(mathml)) => {
            room.has_mathml(mathml, &[mathml.len() as u64, values[1], values[3]])?;
            expect(mathml.len() <= most_bytes(text), "longer than 72 + 48 a byte")?;
        }
        _ => room.nothing_written()?,
    }
    match code {
        0 | 11 | 12 => room.read_as(&parsed)?,
        _ => room.nothing_read()?,
    }
    Ok(code)
}

/// The library's own answer, in an output of the length that is enough for any text of these bytes: the
/// MathML, or `refused=` and the number.
fn answered(text: &[u8]) -> Vec<u8> {
    let known = known(text);
    let situation = Situation {
        table: 0,
        work: 0,
        tree: 0,
        out: 0,
        most: true,
        answer: 1,
        seed: 0,
    };
    let mut room = Room::new(text, &known, &situation);
    match room.mathml() {
        0 => room.out.now()[..room.answer.now()[0] as usize].to_vec(),
        number => format!("refused={number}").into_bytes(),
    }
}

/// The text made smaller piece by piece, as long as it still differs.
fn smallest(text: &[u8], situation: &Situation) -> (Vec<u8>, String) {
    let differs = |text: &[u8]| check(text, &known(text), situation).err();
    let mut text = text.to_vec();
    let mut size = text.len().div_ceil(2);
    while size > 0 {
        let mut at = 0;
        while at < text.len() {
            let mut smaller = text.clone();
            smaller.drain(at..(at + size).min(text.len()));
            if differs(&smaller).is_some() {
                text = smaller;
            } else {
                at += size;
            }
        }
        size /= 2;
    }
    let why = differs(&text).unwrap_or_default();
    (text, why)
}

/// A byte of 128 or more is put in, or the text is made too long, or both.
fn damaged(text: &[u8], random: &mut Random) -> Vec<u8> {
    let mut text = text.to_vec();
    let too_long = random.one_in(8);
    if too_long {
        text.resize(4097 + random.below(9), b'x');
    }
    if !too_long || random.one_in(2) {
        let at = random.below(text.len() + 1);
        text.insert(at, 128 + random.below(128) as u8);
    }
    text
}

struct Run {
    random: Random,
    texts: u64,
    tally: Tally,
    /// Bytes of the longest MathML.
    longest: usize,
    differences: u64,
    told: Instant,
}

impl Run {
    /// A text as it is and now and then with damage.
    fn compare(&mut self, text: &[u8]) {
        self.texts += 1;
        self.compare_one(text);
        if self.random.one_in(8) {
            let damaged = damaged(text, &mut self.random);
            self.compare_one(&damaged);
        }
        if self.told.elapsed() > Duration::from_secs(5) {
            self.told = Instant::now();
            eprintln!("{}", self.so_far());
        }
    }

    fn compare_one(&mut self, text: &[u8]) {
        let known = known(text);
        for situation in situations(&mut self.random) {
            match check(text, &known, &situation) {
                Ok(code) => self.tally[code as usize] += 1,
                Err(difference) => self.differs(text, &situation, &difference),
            }
        }
        let length = known.mathml.as_ref().map_or(0, Vec::len);
        self.longest = self.longest.max(length);
    }

    fn differs(&mut self, text: &[u8], situation: &Situation, difference: &str) {
        self.differences += 1;
        if self.differences <= SHOWN {
            println!("difference {}: {difference}", self.differences);
            let (text, why) = smallest(text, situation);
            println!("  smallest: {why}");
            println!("  text {:?}", String::from_utf8_lossy(&text));
            println!("  {situation:?}");
        }
    }

    fn so_far(&self) -> String {
        let calls: u64 = self.tally.iter().sum();
        format!(
            "{} texts, {calls} calls, {} differences",
            self.texts, self.differences
        )
    }
}

fn bytes_of(hex: &str) -> Vec<u8> {
    let byte = |at| u8::from_str_radix(&hex[at..at + 2], 16).expect("hex digits");
    (0..hex.len()).step_by(2).map(byte).collect()
}

fn run(seed: u64, texts: &str, answers: Option<&String>) -> bool {
    let mut run = Run {
        random: Random(seed),
        texts: 0,
        tally: Tally::default(),
        longest: 0,
        differences: 0,
        told: Instant::now(),
    };
    let mut answers = answers.map(|path| BufWriter::new(File::create(path).expect("a file")));
    let file = BufReader::new(File::open(texts).expect("a file of lines"));
    for line in file.lines() {
        let hex = line.expect("a line");
        let text = bytes_of(&hex);
        run.compare(&text);
        if let Some(file) = &mut answers {
            let line = [hex.as_bytes(), b"\t", &answered(&text), b"\n"].concat();
            file.write_all(&line).expect("room for the answer");
        }
    }
    let refusals: Vec<_> = [1, 2, 7, 8, 9, 11, 12]
        .map(|k| format!("{k}: {}", run.tally[k]))
        .into();
    println!("accepted {}, refused {}", run.tally[0], refusals.join(", "));
    println!("{}, seed {seed}", run.so_far());
    println!("the longest MathML has {} bytes", run.longest);
    run.differences == 0 && run.texts > 0
}

fn main() {
    let args: Vec<String> = std::env::args().collect();
    let [_, seed, texts, answers @ ..] = &args[..] else {
        panic!("compare SEED TEXTS [ANSWERS]")
    };
    let seed = seed.parse().expect("a seed");
    let (texts, answers) = (texts.clone(), answers.first().cloned());
    // trees can be deep: room for writing and dropping them
    let stack = std::thread::Builder::new().stack_size(1 << 28);
    let run = stack
        .spawn(move || run(seed, &texts, answers.as_ref()))
        .unwrap()
        .join();
    std::process::exit(i32::from(!matches!(run, Ok(true))));
}
