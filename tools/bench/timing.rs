//! Passes over a deck of texts, both sides in turns, and what is told of their times.

use crate::calls::{Call, Room, Side};
use crate::guarded::Random;
use crate::inputs::{Group, Input};
use std::hint::black_box;
use std::ops::Range;
use std::time::Instant;

pub const HEAD: &str =
    "call\tgroup\tbytes\tn\trust ns/B\tours ns/B\tratio\tpass low\tpass high\ttext low\ttext high";

/// The times of both sides, the original's first, in nanoseconds: pass by pass, and in a pass text by
/// text, in the deck's order.
struct Times {
    texts: usize,
    sides: [Vec<f64>; 2],
}

impl Times {
    /// What a pass took for these texts, for each pass.
    fn of_passes(&self, side: usize, texts: &Range<usize>) -> Vec<f64> {
        let passes = self.sides[side].chunks_exact(self.texts);
        passes
            .map(|pass| pass[texts.clone()].iter().sum())
            .collect()
    }

    /// By the median of the passes, what a text took for us and for the original.
    fn ratio_of_text(&self, text: usize) -> f64 {
        let [original, ours] =
            [0, 1].map(|side| at(&mut self.of_passes(side, &(text..text + 1)), 0.5));
        ours / original
    }
}

/// Times a call on the groups of a deck, after its answers were compared, and prints a line of the
/// table for each.
pub fn measure(call: &Call, deck: &[&Group], passes: usize, random: &mut Random, room: &mut Room) {
    let inputs: Vec<&Input> = deck.iter().flat_map(|group| &group.inputs).collect();
    for input in &inputs {
        (call.ours)(input, room);
        (call.same)(input, room);
    }
    let times = timed(call, &inputs, passes, random, room);
    let mut first = 0;
    for group in deck {
        let texts = first..first + group.inputs.len();
        first = texts.end;
        println!("{}", line(call, group, &times, texts));
    }
}

/// So many passes, each text once in a pass: a text that is read again and again is learnt by the
/// processor's predictors. The order is another in every pass, and the same for both sides.
fn timed(
    call: &Call,
    inputs: &[&Input],
    passes: usize,
    random: &mut Random,
    room: &mut Room,
) -> Times {
    let texts = inputs.len();
    let mut sides = [0, 1].map(|_| vec![0.0; passes * texts]);
    let mut order: Vec<usize> = (0..texts).collect();
    let idle = idle(inputs[0], room);
    for (pass, start) in (0..passes * texts).step_by(texts).enumerate() {
        shuffle(&mut order, random);
        // which side goes first changes from pass to pass
        for side in [pass % 2, 1 - pass % 2] {
            let call = [call.original, call.ours][side];
            for &text in &order {
                sides[side][start + text] = time(call, inputs[text], room) - idle;
            }
        }
    }
    Times { texts, sides }
}

fn shuffle(order: &mut [usize], random: &mut Random) {
    for last in (1..order.len()).rev() {
        order.swap(last, random.below(last + 1));
    }
}

/// Nanoseconds of a call, those of the clock itself among them.
fn time(side: Side, input: &Input, room: &mut Room) -> f64 {
    let start = Instant::now();
    side(black_box(input), black_box(room));
    start.elapsed().as_nanos() as f64
}

/// What the clock says of a call that does nothing.
fn idle(input: &Input, room: &mut Room) -> f64 {
    let nothing: Side = black_box(|_, _| ());
    let mut times: Vec<f64> = (0..1001).map(|_| time(nothing, input, room)).collect();
    at(&mut times, 0.5)
}

/// The value at a part of the sorted list, from 0 to 1.
fn at(values: &mut [f64], part: f64) -> f64 {
    values.sort_by(f64::total_cmp);
    values[((values.len() - 1) as f64 * part).round() as usize]
}

fn line(call: &Call, group: &Group, times: &Times, texts: Range<usize>) -> String {
    let [mut original, mut ours] = [0, 1].map(|side| times.of_passes(side, &texts));
    let ratios = ours.iter().zip(&original).map(|(own, other)| own / other);
    let mut ratios: Vec<f64> = ratios.collect();
    let mut of_texts: Vec<f64> = texts.map(|text| times.ratio_of_text(text)).collect();
    let bytes = group.bytes() as f64;
    let others: usize = group.inputs.iter().map(|input| input.others).sum();
    let numbers = [
        at(&mut original, 0.5) / bytes,
        at(&mut ours, 0.5) / bytes,
        at(&mut ratios, 0.5),
        at(&mut ratios, 0.05),
        at(&mut ratios, 0.95),
        at(&mut of_texts, 0.05),
        at(&mut of_texts, 0.95),
    ];
    let numbers = numbers.map(|number| format!("{number:.4}")).join("\t");
    format!(
        "{}\t{}\t{bytes}\t{others}\t{numbers}",
        call.name, group.name
    )
}
