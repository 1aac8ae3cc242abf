//! The time of the calls beside the Rust original, both in one process and in turns.
//!
//!     bench TEXTS time SEED [CALL]     a table, tab-separated, of all calls or this one
//!     bench TEXTS names                the names of calls and groups, and the bytes of the groups
//!     bench TEXTS texts|lists          the texts, or the token lists, as lines for tools/compare
//!     bench TEXTS CALL GROUP SIDE      a group once, inside `collected`, for an instruction counter
//!
//! TEXTS has an ordinary answer on each line. Before a call is timed both sides must give the same
//! answers. Then its texts are read in passes: in an order that is drawn for the pass, from the seed,
//! by one side each text once, and then by the other. A text's time is that of one call, less what the
//! clock itself takes. A line of the table gives, for the texts of a group, the nanoseconds a byte by
//! the median of the passes; the ratio, the time of ours in a pass by that of the original in the same
//! pass: the median, and the range that leaves out a twentieth of the passes at either end; and of the
//! ratios of single texts the range that leaves out a twentieth of them.
//!
//! The original makes its tree and drops it. Ours writes to lent buffers that are used again for
//! every text. `crate` are the bindings' own functions, which make a tree too, and drop it; `borrowed`
//! is the one whose tree holds parts of the text, as the original's does.

mod calls;
#[allow(dead_code)]
#[path = "../compare/guarded.rs"]
mod guarded;
mod inputs;
#[path = "../oracle/kinds.rs"]
mod kinds;
mod original;
mod ours;
mod timing;
#[path = "../mathml/writer.rs"]
mod writer;

use calls::{CALLS, Call, Room, Side};
use guarded::Random;
use inputs::{Decks, Group, Text, decks};
use std::hint::black_box;

/// Passes over each deck.
const PASSES: [usize; 3] = [401, 61, 9];

/// An instruction counter counts inside this function.
#[unsafe(no_mangle)]
#[inline(never)]
extern "Rust" fn collected(side: Side, group: &Group, room: &mut Room) {
    for input in &group.inputs {
        side(black_box(input), black_box(room));
    }
}

/// The groups that a call takes.
fn taken<'a>(call: &Call, groups: &'a [Group]) -> Vec<&'a Group> {
    let taken = |group: &&Group| call.on_lists || !group.is_list;
    groups.iter().filter(taken).collect()
}

fn time(decks: &Decks, seed: &str, only: Option<&str>) {
    let seed = seed.parse().expect("a seed");
    println!("{}", timing::HEAD);
    let mut room = Room::new();
    let asked = |call: &&Call| only.is_none_or(|name| name == call.name);
    for call in CALLS.iter().filter(asked) {
        for (deck, passes) in decks.iter().zip(PASSES) {
            let random = &mut Random(seed);
            timing::measure(call, &taken(call, deck), passes, random, &mut room);
        }
    }
}

fn names(decks: &Decks) {
    for call in &CALLS {
        for group in decks.iter().flat_map(|deck| taken(call, deck)) {
            println!("{}\t{}\t{}", call.name, group.name, group.bytes());
        }
    }
}

fn lines(decks: &Decks, lists: bool) {
    let groups = decks.iter().flatten();
    let groups = groups.filter(|group| group.is_list == lists);
    for input in groups.flat_map(|group| &group.inputs) {
        println!("{}", input.line(lists));
    }
}

fn once(decks: &Decks, [call, group, side]: [&str; 3]) {
    let call = CALLS.iter().find(|one| one.name == call).expect("a call");
    let mut groups = decks.iter().flatten();
    let group = groups.find(|one| one.name == group).expect("a group");
    let side = match side {
        "original" => call.original,
        _ => call.ours,
    };
    let mut room = Room::new();
    group.inputs.iter().for_each(|input| side(input, &mut room));
    collected(side, group, &mut room);
}

fn main() {
    let args: Vec<String> = std::env::args().collect();
    let path = args.get(1).expect("a file of texts");
    let file: Text = std::fs::read_to_string(path).expect("texts").leak();
    let decks = decks(file.lines().collect());
    let words: Vec<&str> = args[2..].iter().map(|word| &word[..]).collect();
    match words[..] {
        ["time", seed] => time(&decks, seed, None),
        ["time", seed, call] => time(&decks, seed, Some(call)),
        ["names"] => names(&decks),
        ["texts"] => lines(&decks, false),
        ["lists"] => lines(&decks, true),
        [call, group, side] => once(&decks, [call, group, side]),
        _ => panic!("bench TEXTS time SEED [CALL] | names | texts | lists | CALL GROUP SIDE"),
    }
}
