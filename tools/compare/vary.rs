//! Situations of the buffers, damaged cases, and smaller cases.

use crate::check::{Case, Situation};
use crate::guarded::Random;
use crate::original::Answer;
use crate::predict::{TREE, WORK};

/// Buffers of just the length that is needed.
pub fn plain(seed: u64) -> Situation {
    Situation {
        table: 0,
        work: 0,
        tree: 0,
        closers: 0,
        print: 0,
        answer: 6,
        seed,
    }
}

/// The situations that a case is read in: just enough, one buffer of a reading and perhaps the
/// closers one short, and either enough for any text of that length or anything.
pub fn situations(case: &Case, answer: Option<&Answer>, random: &mut Random) -> [Situation; 3] {
    let mut one_short = plain(random.next());
    match random.below(4) {
        0 => one_short.table = -1,
        1 => one_short.work = -1,
        2 => one_short.tree = -1,
        _ => one_short.print = -1,
    }
    one_short.closers = random.pick(&[0, -1]);
    let mut more = || match random.below(8) {
        0 => -(random.below(40) as isize),
        1 => isize::MIN,
        _ => random.below(300) as isize,
    };
    let any = Situation {
        table: more(),
        work: more(),
        tree: more(),
        closers: more(),
        print: more(),
        answer: random.below(6),
        seed: random.next(),
    };
    let other = match answer {
        Some(answer) if random.one_in(2) => any_text(case.text.len(), answer, random.next()),
        _ => any,
    };
    [plain(random.next()), one_short, other]
}

/// Buffers that are enough for any text of that length.
fn any_text(length: usize, answer: &Answer, seed: u64) -> Situation {
    let more = |words: usize, tokens: usize| words as isize * (length as isize - tokens as isize);
    Situation {
        table: more(3, answer.table.len() / 3),
        work: more(WORK, answer.others),
        tree: more(TREE, answer.others),
        closers: more(1, answer.others),
        ..plain(seed)
    }
}

/// Cases made from one: its tokens as a list, and damage that is mostly refused.
pub fn cases(case: &Case, answer: Option<&Answer>, random: &mut Random) -> Vec<Case> {
    let mut varied = Vec::new();
    match &case.list {
        None => {
            if let Some(answer) = answer.filter(|_| random.one_in(4)) {
                varied.push(Case {
                    text: case.text.clone(),
                    list: Some((answer.table.clone(), answer.table.len() / 3)),
                });
            }
            if random.one_in(8) {
                varied.push(Case {
                    text: damaged_text(&case.text, random),
                    list: None,
                });
            }
        }
        Some((words, count)) => {
            if random.one_in(2) {
                varied.push(damaged_list(&case.text, words, *count, random));
            }
            if random.one_in(16) {
                varied.push(Case {
                    text: damaged_text(&case.text, random),
                    list: case.list.clone(),
                });
            }
        }
    }
    varied
}

/// A byte of 128 or more is put in, or the text is made too long, or both.
fn damaged_text(text: &[u8], random: &mut Random) -> Vec<u8> {
    let mut text = text.to_vec();
    let too_long = random.one_in(8);
    if too_long {
        text.push(b'x');
        text = text
            .iter()
            .copied()
            .cycle()
            .take(4097 + random.below(9))
            .collect();
    }
    if !too_long || random.one_in(2) {
        let at = random.below(text.len() + 1);
        text.insert(at, 128 + random.below(128) as u8);
    }
    text
}

/// A word changed, a token put in, or another count.
fn damaged_list(text: &[u8], words: &[u32], count: usize, random: &mut Random) -> Case {
    let (mut words, mut count) = (words.to_vec(), count);
    let end = text.len() as u32;
    match random.below(6) {
        0 => count = random.pick(&[count + 1, count.saturating_sub(1), 4097, usize::MAX]),
        1 => words.extend((0..random.below(9)).map(|_| random.next() as u32)),
        2 => {
            words.resize(3 * 4097, 0);
            count = 4096 + random.below(2);
        }
        3 if count > 0 => {
            // two Space tokens, of which the first may be empty
            let at = 3 * random.below(count);
            let first = [0, random.below(2) as u32, 23];
            words.splice(at..at, first.into_iter().chain([0, 0, 23]));
            count += 2;
        }
        _ if count > 0 => {
            let at = random.below(words.len());
            let any = random.next() as u32;
            words[at] = random.pick(&[0, 23, 24, end, end + 1, u32::MAX, any]);
        }
        _ => {}
    }
    Case {
        text: text.to_vec(),
        list: Some((words, count)),
    }
}

/// The case and situation made smaller piece by piece, as long as they still differ.
pub fn smallest(
    case: &Case,
    situation: &Situation,
    differs: &dyn Fn(&Case, &Situation) -> bool,
) -> (Case, Situation) {
    let (mut case, mut situation) = (case.clone(), *situation);
    let easier: [fn(&mut Situation); 6] = [
        |s| s.table = 0,
        |s| s.work = 0,
        |s| s.tree = 0,
        |s| s.closers = 0,
        |s| s.print = 0,
        |s| s.answer = 6,
    ];
    for ease in easier {
        let mut eased = situation;
        ease(&mut eased);
        if differs(&case, &eased) {
            situation = eased;
        }
    }
    let pieces = |case: &Case| match &case.list {
        None => case.text.len(),
        Some((_, count)) => *count,
    };
    let mut size = pieces(&case).div_ceil(2);
    while size > 0 {
        let mut at = 0;
        while at < pieces(&case) {
            let smaller = without(&case, at, (at + size).min(pieces(&case)));
            match smaller.filter(|smaller| differs(smaller, &situation)) {
                Some(smaller) => case = smaller,
                None => at += size,
            }
        }
        size /= 2;
    }
    (case, situation)
}

/// A case without some bytes of its text, or without some tokens of its list.
fn without(case: &Case, from: usize, to: usize) -> Option<Case> {
    let mut case = case.clone();
    match &mut case.list {
        None => drop(case.text.drain(from..to)),
        Some((words, count)) => {
            if 3 * to > words.len() {
                return None;
            }
            words.drain(3 * from..3 * to);
            *count -= to - from;
        }
    }
    Some(case)
}
