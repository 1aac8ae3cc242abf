//! Compares the library with the Rust original, both in this process.
//!
//!     compare SEED TEXTS LISTS
//!
//! TEXTS has a text in hex on each line; LISTS has a text in hex and a token list, as tools/corpus.py
//! writes them. Each is read in a few situations: buffers just long enough, longer, and too short;
//! by the bindings' own functions; and with damage that is to be refused. Everything is decided by
//! the seed.

mod check;
mod guarded;
#[path = "../oracle/kinds.rs"]
mod kinds;
mod original;
mod ours;
mod predict;
#[path = "../oracle/reading.rs"]
mod reading;
mod vary;

use check::{Case, Check, Checked, Situation, Tally, known};
use guarded::Random;
use std::fs::File;
use std::io::{BufRead, BufReader};
use std::time::{Duration, Instant};

/// So many differences are shown, each made as small as it can be.
const SHOWN: u64 = 5;

struct Run {
    random: Random,
    texts: u64,
    lists: u64,
    tally: Tally,
    differences: u64,
    told: Instant,
}

impl Run {
    /// A case as it is and with damage, each in a few situations.
    fn compare(&mut self, case: Case) {
        match case.list {
            None => self.texts += 1,
            Some(_) => self.lists += 1,
        }
        let answer = self.compare_one(&case);
        for varied in vary::cases(&case, answer.as_ref(), &mut self.random) {
            self.compare_one(&varied);
        }
        if self.told.elapsed() > Duration::from_secs(5) {
            self.told = Instant::now();
            eprintln!("{}", self.so_far());
        }
    }

    fn compare_one(&mut self, case: &Case) -> Option<original::Answer> {
        let answer = match known(case) {
            Ok(answer) => answer,
            Err(difference) => {
                self.differs(case, &vary::plain(0), &difference);
                return None;
            }
        };
        if let Err(difference) = ours::check(case, answer.as_ref()) {
            self.differs(case, &vary::plain(0), &difference);
        }
        for situation in vary::situations(case, answer.as_ref(), &mut self.random) {
            let checked = Check {
                case,
                answer: answer.as_ref(),
                situation: &situation,
                tally: &mut self.tally,
            }
            .run();
            if let Err(difference) = checked {
                self.differs(case, &situation, &difference);
            }
        }
        answer
    }

    fn differs(&mut self, case: &Case, situation: &Situation, difference: &str) {
        self.differences += 1;
        if self.differences <= SHOWN {
            println!("difference {}: {difference}", self.differences);
            let (case, situation) = vary::smallest(case, situation, &|case, situation| {
                check_alone(case, situation).is_err()
            });
            if let Err(difference) = check_alone(&case, &situation) {
                println!("  smallest: {difference}");
            }
            println!("  text {:?}", String::from_utf8_lossy(&case.text));
            if let Some((words, count)) = &case.list {
                println!("  count {count}, table {words:?}");
            }
            println!("  {situation:?}");
        }
    }

    fn so_far(&self) -> String {
        let calls: u64 = self.tally.iter().sum();
        format!(
            "{} texts, {} token lists, {calls} calls, {} differences",
            self.texts, self.lists, self.differences
        )
    }
}

fn check_alone(case: &Case, situation: &Situation) -> Checked {
    let answer = known(case)?;
    ours::check(case, answer.as_ref())?;
    Check {
        case,
        answer: answer.as_ref(),
        situation,
        tally: &mut Tally::default(),
    }
    .run()
}

/// A text, or a text and its token list, of a line.
fn case_of(line: &str, is_list: bool) -> Case {
    let mut parts = line.split(' ');
    let hex = parts.next().unwrap_or("");
    let byte = |at| u8::from_str_radix(&hex[at..at + 2], 16).expect("hex digits");
    let number = |word: &str| word.parse::<u32>().expect("a number");
    Case {
        text: (0..hex.len()).step_by(2).map(byte).collect(),
        list: is_list.then(|| {
            let words: Vec<u32> = parts.flat_map(|part| part.split(',')).map(number).collect();
            let count = words.len() / 3;
            (words, count)
        }),
    }
}

fn run(seed: u64, files: [String; 2]) -> bool {
    let mut run = Run {
        random: Random(seed),
        texts: 0,
        lists: 0,
        tally: Tally::default(),
        differences: 0,
        told: Instant::now(),
    };
    for (path, is_list) in files.iter().zip([false, true]) {
        let file = BufReader::new(File::open(path).expect("a file of lines"));
        for line in file.lines() {
            run.compare(case_of(&line.expect("a line"), is_list));
        }
    }
    let refusals: Vec<_> = (1..11).map(|k| format!("{k}: {}", run.tally[k])).collect();
    println!("accepted {}, refused {}", run.tally[0], refusals.join(", "));
    println!("{}, seed {seed}", run.so_far());
    run.differences == 0
}

fn main() {
    let args: Vec<String> = std::env::args().collect();
    let [_, seed, texts, lists] = &args[..] else {
        panic!("compare SEED TEXTS LISTS")
    };
    let (seed, files) = (
        seed.parse().expect("a seed"),
        [texts.clone(), lists.clone()],
    );
    // where the original panics it is caught
    std::panic::set_hook(Box::new(|panic| {
        let message = panic.payload().downcast_ref::<&str>();
        if message != Some(&"two space tokens in a row") {
            eprintln!("{panic}");
        }
    }));
    // trees can be deep: room for printing and dropping them
    let stack = std::thread::Builder::new().stack_size(1 << 28);
    let run = stack.spawn(move || run(seed, files)).unwrap().join();
    std::process::exit(i32::from(!matches!(run, Ok(true))));
}
