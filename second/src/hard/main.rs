//! Hard use of the library: `hard PART [--seed N] [--rounds N] [--calls N]`, one part at a time. `second/hard`
//! runs them. Each part ends with one line, or with a difference and status 1.

mod calls;
mod edges;
mod judge;
mod pages;
mod seeds;
mod shapes;
mod sheets;
mod threads;
mod turn;

use calls::ENTRIES;
use edges::{Edges, Guarded, Heap, Places};
use judge::Judge;
use second::random::Random;
use std::time::Instant;
use turn::Turn;

/// Bytes of a sheet that is cut at every length, at most; fewer where each call costs much.
const LONGEST: usize = 1_600;
const LONGEST_HEAP: usize = 240;

/// A memory checker takes some fifty times as long: one combination of lengths in so many.
const HEAP_PART: usize = 8;

struct Options {
    part: String,
    seed: u64,
    rounds: u64,
    calls: u64,
    folder: String,
}

fn options() -> Option<Options> {
    let mut words = std::env::args().skip(1);
    let part = words.next()?;
    let mut options = Options { part, seed: 1, rounds: 1, calls: 1_000_000, folder: String::new() };
    while let Some(word) = words.next() {
        let value = words.next()?;
        match word.as_str() {
            "--seed" => options.seed = value.parse().ok()?,
            "--rounds" => options.rounds = value.parse().ok()?,
            "--calls" => options.calls = value.parse().ok()?,
            "--folder" => options.folder = value,
            _ => return None,
        }
    }
    Some(options)
}

/// "1234567" as "1,234,567".
fn grouped(n: u64) -> String {
    let digits = n.to_string();
    let comma = |(i, c): (usize, char)| {
        let before = i > 0 && (digits.len() - i) % 3 == 0;
        [before.then_some(','), Some(c)].into_iter().flatten()
    };
    digits.chars().enumerate().flat_map(comma).collect()
}

fn rows(counts: &[u64; ENTRIES.len()]) -> String {
    let row = |(n, entry): (&u64, &(calls::Entry, &str))| format!("{} {}", entry.1, grouped(*n));
    counts.iter().zip(&ENTRIES).map(row).collect::<Vec<_>>().join(", ")
}

fn edges<P: Places>(options: &Options, places: P, part: usize, longest: usize, name: &str) {
    let mut judge = Judge::new();
    let random = Random::new(options.seed);
    let mut edges = Edges { places, judge: &mut judge, random, counts: [0; ENTRIES.len()], part };
    (0..options.rounds).for_each(|_| edges.round(longest));
    let counts = edges.counts;
    let all = grouped(counts.iter().sum());
    println!("{name}: {all} calls, all judged, none differs; {}", rows(&counts));
}

fn turn(options: &Options) {
    let mut judge = Judge::new();
    let mut turn = Turn::new(&mut judge, Random::new(options.seed));
    // Six calls in a thousand or so are of sheets: a round has ten or eleven, at least two of each entry.
    turn.all_sheets(options.calls / 1_900 + 1);
    let left = options.calls.saturating_sub(turn.made);
    turn.codes(left);
    let (all, judged) = (grouped(turn.made), grouped(turn.judged));
    println!(
        "calls: {all}, none differs; {judged} judged by the second program; {}",
        rows(&turn.counts)
    );
}

fn threads(options: &Options) {
    let mut random = Random::new(options.seed);
    match threads::run(&mut random, 100 * ENTRIES.len(), options.rounds as usize) {
        Ok(calls) => {
            println!("threads: {} calls from four at once, as from one", grouped(calls as u64))
        }
        Err(why) => {
            println!("threads: {why}");
            std::process::exit(1);
        }
    }
}

fn main() {
    let Some(options) = options() else {
        eprintln!("hard PART [--seed N] [--rounds N] [--calls N] [--folder F]");
        std::process::exit(2);
    };
    let begun = Instant::now();
    match options.part.as_str() {
        "edges" => {
            pages::tell_faults();
            edges(&options, Guarded::new(), 1, LONGEST, "edges");
        }
        "heap" => edges(&options, Heap, HEAP_PART, LONGEST_HEAP, "heap"),
        "calls" => turn(&options),
        "threads" => threads(&options),
        "seeds" => seeds::write(&options.folder, options.seed),
        part => panic!("no part {part}"),
    }
    println!("  in {:.1} s", begun.elapsed().as_secs_f64());
}
