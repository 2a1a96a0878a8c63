//! Every entry from several threads at once, on inputs that they share and outputs of their own.

use crate::calls::{library, Answer, Entry, Given, ENTRIES};
use crate::sheets::some_sheet;
use second::inputs;
use second::points;
use second::random::Random;
use second::sizes::*;
use std::thread;

const THREADS: usize = 4;
const ROOM: usize = 64;

/// An input that the threads share.
struct Shared {
    entry: Entry,
    one: Vec<u8>,
    two: Vec<u8>,
    which: u8,
}

#[derive(Clone, PartialEq)]
struct Outcome {
    answer: Answer,
    out: [u8; ROOM],
    other: [u8; ROOM],
}

fn outcome(shared: &Shared) -> Outcome {
    let (mut out, mut other) = ([0xa5; ROOM], [0x5a; ROOM]);
    let Shared { entry, one, two, which } = shared;
    let given = Given { entry: *entry, one, two, which: *which };
    let answer = library(&given, &mut out, &mut other);
    Outcome { answer, out, other }
}

/// Every entry in turn, on good inputs and on others.
fn inputs(random: &mut Random, count: usize) -> Vec<Shared> {
    let depths = every_depth();
    let sheets: Vec<(usize, Vec<u8>)> =
        (0..48).map(|n| (2 + n % 3, some_sheet(random, 2 + n % 3, n / 3 % 4))).collect();
    let input = |n: usize| {
        let entry = ENTRIES[n % ENTRIES.len()].0;
        let (d, depth) = depths[random.below(depths.len())];
        let (mut one, mut two) = (inputs::any_code(random, n, &depths), Vec::new());
        if entry == Entry::PathToCode {
            (one, two) = (inputs::any_root(random, d), inputs::any_path(random, depth));
        } else if entry.reads_a_sheet() {
            let (d, sheet) = &sheets[random.below(sheets.len())];
            let cut = if random.once_in(4) { random.below(sheet.len()) } else { sheet.len() };
            let point = points::anywhere(random, *d);
            (one, two) = (sheet[..cut].to_vec(), points::bytes(&point, *d));
        }
        Shared { entry, one, two, which: random.below(5) as u8 }
    };
    (0..count).map(input).collect()
}

/// All inputs, from one of them on and around, so that the threads are at different ones.
fn differing(inputs: &[Shared], expected: &[Outcome], from: usize, rounds: usize) -> usize {
    let all = (0..rounds * inputs.len()).map(|n| (n + from) % inputs.len());
    all.filter(|n| outcome(&inputs[*n]) != expected[*n]).count()
}

/// Gives the calls made.
pub fn run(random: &mut Random, count: usize, rounds: usize) -> Result<usize, String> {
    let inputs = inputs(random, count);
    let expected: Vec<Outcome> = inputs.iter().map(outcome).collect();
    let (inputs, expected) = (&inputs, &expected);
    let begin = |t: usize| move || differing(inputs, expected, t * count / THREADS, rounds);
    let differ: usize = thread::scope(|scope| {
        let threads: Vec<_> = (0..THREADS).map(|t| scope.spawn(begin(t))).collect();
        threads.into_iter().map(|thread| thread.join().expect("a thread failed")).sum()
    });
    match differ {
        0 => Ok(THREADS * rounds * count),
        n => Err(format!("{n} answers of several threads are not those of one")),
    }
}
