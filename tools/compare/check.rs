//! One text or token list, read by both sides in one situation of the buffers.

use crate::guarded::{Guarded, Random};
use crate::original::Answer;
use crate::predict::{self, Lent};
use crate::{original, ours};
use asciimath::calls;

/// What is read: a text, or a table of words with a count of tokens over a text.
#[derive(Clone)]
pub struct Case {
    pub text: Vec<u8>,
    pub list: Option<(Vec<u32>, usize)>,
}

/// By how much each buffer is longer than needed, or shorter if below 0, and the words of the
/// answer.
#[derive(Clone, Copy, Debug)]
pub struct Situation {
    pub table: isize,
    pub work: isize,
    pub tree: isize,
    pub closers: isize,
    pub print: isize,
    pub answer: usize,
    /// The words in the buffers come from it.
    pub seed: u64,
}

/// Nothing, or a difference in words.
pub type Checked = Result<(), String>;

/// How often the calls answered 0 and each refusal.
pub type Tally = [u64; 11];

pub fn expect(holds: bool, what: &str) -> Checked {
    if holds { Ok(()) } else { Err(what.into()) }
}

/// What the original gives for a case; none for one that is refused whatever the buffers.
pub fn known(case: &Case) -> Result<Option<Answer>, String> {
    let text = str::from_utf8(&case.text).unwrap_or("");
    let Some((words, count)) = &case.list else {
        let refused = predict::text(&case.text, 0, 0, 0, &Lent::default());
        return Ok((refused == 0).then(|| original::text(text)));
    };
    let refused = predict::list(&case.text, words, *count, &Lent::default());
    if refused != 0 && refused != 6 {
        return Ok(None);
    }
    let table = &words[..3 * count];
    // behind a 6 there may be tokens that the original can't be given
    if refused == 6 && !all_fit(text, table) {
        return Ok(None);
    }
    let answer = original::list(text, table);
    if answer.is_none() != (refused == 6) {
        return Err("refusal 6 is not where the original panics".into());
    }
    Ok(answer)
}

/// Whether every token has a kind and a span of the text.
pub fn all_fit(text: &str, table: &[u32]) -> bool {
    table.chunks_exact(3).all(|token| {
        let end = u64::from(token[0]) + u64::from(token[1]);
        token[2] < 24 && end <= text.len() as u64
    })
}

/// The buffers of a call; one that the call doesn't have is empty.
struct Room {
    text: Guarded<u8>,
    table: Guarded<u32>,
    work: Guarded<u32>,
    tree: Guarded<u32>,
    closers: Guarded<u32>,
    print: Guarded<u8>,
    answer: Guarded<u64>,
    /// The lengths.
    lent: Lent,
}

impl Room {
    fn new(case: &Case, needed: Lent, situation: &Situation) -> Self {
        let random = &mut Random(situation.seed);
        let (word, byte) = (|word| word as u32, |word| word as u8);
        let length =
            |needed: Option<usize>, more| needed.map(|length| length.saturating_add_signed(more));
        let lent = Lent {
            table: length(needed.table, situation.table),
            work: length(needed.work, situation.work),
            tree: length(needed.tree, situation.tree),
            closers: length(needed.closers, situation.closers),
            print: length(needed.print, situation.print),
        };
        Room {
            text: Guarded::of(&case.text, random, byte),
            table: match &case.list {
                Some((words, _)) => Guarded::of(words, random, word),
                None => Guarded::random(lent.table.unwrap_or(0), random, word),
            },
            work: Guarded::random(lent.work.unwrap_or(0), random, word),
            tree: Guarded::random(lent.tree.unwrap_or(0), random, word),
            closers: Guarded::random(lent.closers.unwrap_or(0), random, word),
            print: Guarded::random(lent.print.unwrap_or(0), random, byte),
            answer: Guarded::random(situation.answer, random, |word| word),
            lent,
        }
    }

    fn nothing_changed(&self) -> Checked {
        expect(self.text.same(), "the text changed")?;
        expect(self.table.same(), "the table changed")?;
        expect(self.work.same(), "work changed")?;
        expect(self.tree.same(), "the tree changed")?;
        expect(self.closers.same(), "the closers changed")?;
        expect(self.print.same(), "the print buffer changed")?;
        expect(self.answer.same(), "the answer changed")
    }

    /// The values come first, as many as there are words for; no other word is written.
    fn has_values(&self, values: &[u64]) -> Checked {
        let known = values.len().min(self.answer.now().len());
        let given = &self.answer.now()[..known];
        if given != &values[..known] {
            return Err(format!("the answer is {given:?}, not {values:?}"));
        }
        expect(self.answer.same_from(known), "words behind the answer")?;
        expect(self.text.same(), "the text changed")
    }

    /// The tokens, and the other words as before.
    fn has_tokens(&self, answer: &Answer) -> Checked {
        let known = answer.table.len();
        let given = &self.table.now()[..known];
        if given != answer.table {
            return Err(format!("the tokens are {given:?}, not {:?}", answer.table));
        }
        expect(self.table.same_from(known), "words behind the tokens")
    }

    /// The closers, in pairs that never cross, and the other words as before.
    fn has_closers(&self, answer: &Answer) -> Checked {
        let given = &self.closers.now()[..answer.others];
        if given != answer.closers {
            let right = &answer.closers;
            return Err(format!("the closers are {given:?}, not {right:?}"));
        }
        nested(given)?;
        expect(self.closers.same_from(given.len()), "words behind closers")
    }

    /// Work is zero, the tree is the original's, and zero behind it.
    fn has_tree(&self, text: &str, answer: &Answer) -> Checked {
        let zero = |words: &[u32]| words.iter().all(|&word| word == 0);
        expect(zero(self.work.now()), "work is not zero")?;
        expect(self.work.same_around(), "words around work")?;
        let words = self.tree.now();
        let tokens = answer.table.len() / 3;
        let printed = ours::printed(text, words, tokens, answer.takes, answer.items);
        let (printed, end) = printed.ok_or("the words are no tree")?;
        same_lines(&printed, &answer.printed)?;
        expect(zero(&words[end..]), "words behind the tree")?;
        expect(self.tree.same_around(), "words around the tree")
    }
}

/// A closer stands behind its opener, is no other's and opens nothing; pairs never cross.
fn nested(closers: &[u32]) -> Checked {
    // the closers to come, the next one last
    let mut open = Vec::new();
    for (at, &closer) in closers.iter().enumerate() {
        let (closer, closes) = (closer as usize, open.last() == Some(&at));
        if closes {
            open.pop();
        }
        if closer == closers.len() {
            continue;
        }
        expect(!closes, "a closer opens")?;
        expect(at < closer, "a closer before its opener")?;
        let before = *open.last().unwrap_or(&closers.len());
        expect(closer < before, "pairs cross or have one closer")?;
        open.push(closer);
    }
    Ok(())
}

pub fn same_lines(ours: &str, original: &str) -> Checked {
    if ours == original {
        return Ok(());
    }
    let mut lines = ours.lines().zip(original.lines());
    match lines.find(|(own, other)| own != other) {
        Some((own, other)) => Err(format!("the tree has {own:?}, not {other:?}")),
        None => Err("one tree has more lines".into()),
    }
}

/// A case with what is known of it, and where to count the answers.
pub struct Check<'a> {
    pub case: &'a Case,
    pub answer: Option<&'a Answer>,
    pub situation: &'a Situation,
    pub tally: &'a mut Tally,
}

impl<'a> Check<'a> {
    /// Every call that takes such a case: the answers are the same, and only what 01 names is
    /// written.
    pub fn run(&mut self) -> Checked {
        if self.case.list.is_some() {
            self.closers().map_err(|say| say + " (closers)")?;
            return self.parse_tokens().map_err(|say| say + " (parse_tokens)");
        }
        self.lookup().map_err(|say| say + " (lookup)")?;
        self.count().map_err(|say| say + " (count)")?;
        self.tokens().map_err(|say| say + " (tokens)")?;
        self.parse().map_err(|say| say + " (parse)")?;
        self.print().map_err(|say| say + " (print)")?;
        self.closers_text().map_err(|say| say + " (closers_text)")
    }

    fn room(&self, needed: Lent) -> Room {
        Room::new(self.case, needed, self.situation)
    }

    /// What the buffers must have for this case; any number where it is refused by itself.
    fn needed(&self) -> Lent {
        let others = self.answer.map_or(40, |answer| answer.others);
        Lent {
            table: Some(self.answer.map_or(120, |answer| answer.table.len())),
            work: Some(predict::WORK * (others + 1)),
            tree: Some(predict::TREE * (others + 1)),
            closers: Some(others),
            print: Some(self.answer.map_or(500, |answer| answer.printed.len())),
        }
    }

    fn predicted(&self, lent: &Lent) -> u32 {
        let text = &self.case.text;
        match (&self.case.list, self.answer) {
            (Some((words, count)), _) => predict::list(text, words, *count, lent),
            (None, None) => predict::text(text, 0, 0, 0, lent),
            (None, Some(answer)) => {
                let (tokens, printed) = (answer.table.len() / 3, answer.printed.len());
                predict::text(text, tokens, answer.others, printed, lent)
            }
        }
    }

    /// Compares the code of a call with the predicted one. The original's answer, if the call
    /// accepted.
    fn accepted(&mut self, code: u32, room: &Room) -> Result<Option<&'a Answer>, String> {
        let expected = self.predicted(&room.lent);
        if code != expected {
            return Err(format!("the code is {code}, not {expected}"));
        }
        self.tally[code as usize] += 1;
        match code {
            0 => Ok(self.answer),
            // leaves its reading in the other buffers: `print` looks at them
            10 => Ok(None),
            _ => room.nothing_changed().map(|()| None),
        }
    }

    fn text(&self) -> &'a str {
        str::from_utf8(&self.case.text).expect("an accepted text")
    }

    /// At the text's start, its middle, its last byte and its end: the call takes any bytes.
    fn lookup(&mut self) -> Checked {
        let len = self.case.text.len();
        for at in [0, len / 2, len.saturating_sub(1), len, usize::MAX] {
            let mut room = self.room(Lent::default());
            let code = calls::lookup(room.text.now(), at, room.answer.lent());
            expect(code == 0, "the code is not 0")?;
            self.tally[0] += 1;
            match original::lookup(&self.case.text, at) {
                Some(values) => room.has_values(&values),
                None => room.has_values(&[0]),
            }?;
        }
        Ok(())
    }

    fn count(&mut self) -> Checked {
        let mut room = self.room(Lent::default());
        let code = calls::count(room.text.now(), room.answer.lent());
        match self.accepted(code, &room)? {
            Some(answer) => {
                let tokens = answer.table.len() / 3;
                room.has_values(&[tokens as u64, answer.others as u64])
            }
            None => Ok(()),
        }
    }

    fn tokens(&mut self) -> Checked {
        let mut room = self.room(Lent {
            table: self.needed().table,
            ..Lent::default()
        });
        let code = calls::tokens(room.text.now(), room.table.lent(), room.answer.lent());
        match self.accepted(code, &room)? {
            Some(answer) => {
                room.has_values(&[answer.table.len() as u64 / 3])?;
                room.has_tokens(answer)
            }
            None => Ok(()),
        }
    }

    fn parse(&mut self) -> Checked {
        let mut room = self.room(Lent {
            closers: None,
            print: None,
            ..self.needed()
        });
        let code = calls::parse(
            room.text.now(),
            room.table.lent(),
            room.work.lent(),
            room.tree.lent(),
            room.answer.lent(),
        );
        let Some(answer) = self.accepted(code, &room)? else {
            return Ok(());
        };
        let (items, blank) = (answer.items as u64, u64::from(answer.items == 0));
        room.has_values(&[answer.table.len() as u64 / 3, answer.takes, items, blank])?;
        room.has_tokens(answer)?;
        room.has_tree(self.text(), answer)
    }

    fn print(&mut self) -> Checked {
        let mut room = self.room(Lent {
            closers: None,
            ..self.needed()
        });
        let code = calls::print(
            room.text.now(),
            room.table.lent(),
            room.work.lent(),
            room.tree.lent(),
            room.print.lent(),
            room.answer.lent(),
        );
        if let Some(answer) = self.accepted(code, &room)? {
            let known = answer.printed.len();
            let most = 12 * predict::TREE * (answer.others + 1) + 64;
            expect(known <= most, "longer than ASCIIMATH_PRINT_BYTES")?;
            let blank = u64::from(answer.items == 0);
            room.has_values(&[known as u64, answer.takes, blank])?;
            let printed = String::from_utf8_lossy(&room.print.now()[..known]);
            same_lines(&printed, &answer.printed)?;
            expect(room.print.same_from(known), "bytes behind the print")?;
        }
        // after 10 all but the print is as after acceptance
        if code == 10 {
            expect(room.print.same(), "the print buffer changed")?;
            room.has_values(&[])?;
        }
        match self.answer {
            Some(answer) if code == 0 || code == 10 => {
                room.has_tokens(answer)?;
                room.has_tree(self.text(), answer)
            }
            _ => Ok(()),
        }
    }

    fn closers_text(&mut self) -> Checked {
        let mut room = self.room(Lent {
            table: self.needed().table,
            closers: self.needed().closers,
            ..Lent::default()
        });
        let code = calls::closers_text(
            room.text.now(),
            room.table.lent(),
            room.closers.lent(),
            room.answer.lent(),
        );
        let Some(answer) = self.accepted(code, &room)? else {
            return Ok(());
        };
        room.has_values(&[answer.table.len() as u64 / 3, answer.others as u64])?;
        room.has_tokens(answer)?;
        room.has_closers(answer)
    }

    /// The count that is claimed for the case's list.
    fn claimed(&self) -> usize {
        self.case.list.as_ref().expect("a list").1
    }

    fn closers(&mut self) -> Checked {
        let mut room = self.room(Lent {
            closers: self.needed().closers,
            ..Lent::default()
        });
        let code = calls::closers(
            room.text.now(),
            room.table.now(),
            self.claimed(),
            room.closers.lent(),
            room.answer.lent(),
        );
        let Some(answer) = self.accepted(code, &room)? else {
            return Ok(());
        };
        room.has_values(&[answer.others as u64])?;
        expect(room.table.same(), "the table changed")?;
        room.has_closers(answer)
    }

    fn parse_tokens(&mut self) -> Checked {
        let mut room = self.room(Lent {
            table: None,
            closers: None,
            print: None,
            ..self.needed()
        });
        let code = calls::parse_tokens(
            room.text.now(),
            room.table.now(),
            self.claimed(),
            room.work.lent(),
            room.tree.lent(),
            room.answer.lent(),
        );
        let Some(answer) = self.accepted(code, &room)? else {
            return Ok(());
        };
        let (items, blank) = (answer.items as u64, u64::from(answer.items == 0));
        room.has_values(&[answer.takes, items, blank])?;
        expect(room.table.same(), "the table changed")?;
        room.has_tree(self.text(), answer)
    }
}
