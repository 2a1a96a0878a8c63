//! Seeds for the fuzzers: good sheets and codes, and choices that make some, in the form that is read.

use crate::calls::Entry;
use crate::edges::OUTPUT;
use crate::shapes::{made_seed, seed, shape};
use crate::sheets::some_sheet;
use second::random::Random;
use second::{inputs, points, sizes::*};
use std::fs;

pub const FUZZED: [Entry; 4] = [Entry::SheetCheck, Entry::ValueAt, Entry::Compatible, Entry::Cross];

/// Bytes of the longest sheet among them: a fuzzer is quicker on short ones.
const LONGEST: usize = 1_000;
const OF_EACH: usize = 60;

fn bytes(random: &mut Random, entry: Entry, n: usize) -> Vec<u8> {
    let d = DIMENSIONS[n % 3];
    if n % 2 == 1 {
        let choices: Vec<u8> = (0..27).map(|_| random.byte() & random.byte()).collect();
        return made_seed(entry, &choices);
    }
    if entry == Entry::Cross {
        let depth = random.below(greatest_depth(d) + 1);
        let code = inputs::good_code(random, d, depth);
        return read_back(entry, &code, &[], random.below(d + 1) as u8);
    }
    let sheet = some_sheet(random, d, n / 6 % 4);
    let point = points::bytes(&points::anywhere(random, d), d);
    let point = if entry == Entry::ValueAt { &point[..] } else { &[] };
    read_back(entry, &sheet[..sheet.len().min(LONGEST)], point, 0)
}

/// A seed is of use where it is read as what it was made of.
fn read_back(entry: Entry, one: &[u8], two: &[u8], which: u8) -> Vec<u8> {
    let seed = seed(entry, one, two, which);
    let read = shape(entry, &seed).expect("a seed is not read");
    let same = read.one == one && read.two == two && read.which == which && read.lent <= OUTPUT;
    assert!(same, "a seed is read otherwise");
    seed
}

/// A folder for each entry.
pub fn write(folder: &str, seed: u64) {
    let mut random = Random::new(seed);
    for entry in FUZZED {
        let folder = format!("{folder}/{}", entry.name());
        fs::create_dir_all(&folder).expect("no folder for seeds");
        for n in 0..OF_EACH {
            let bytes = bytes(&mut random, entry, n);
            fs::write(format!("{folder}/seed-{n}"), bytes).expect("a seed is not written");
        }
    }
    println!("seeds: {} for each of {} entries", OF_EACH, FUZZED.len());
}
