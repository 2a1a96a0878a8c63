//! Lent outputs, and the comparison of two outcomes on the same input.

use crate::random::Random;
use std::fmt;

/// Cells behind the lent ones, which are watched too. No answer is longer.
const BEHIND: usize = 48;

/// A lent output: its first `length` cells are lent, and all of them hold a random pattern at first.
#[derive(Clone, PartialEq)]
pub struct Lent {
    cells: Vec<u8>,
    length: usize,
}

impl Lent {
    pub fn new(random: &mut Random, length: usize) -> Lent {
        let mut cells = vec![0; (length + BEHIND).next_multiple_of(8)];
        for part in cells.chunks_mut(8) {
            part.copy_from_slice(&random.next().to_le_bytes());
        }
        Lent { cells, length }
    }

    /// A length at or near that of an answer, or anywhere below it.
    pub fn near(random: &mut Random, answer: usize) -> Lent {
        let length = match random.below(4) {
            0 => answer,
            1 => answer.saturating_sub(1),
            2 => random.below(answer + 1),
            _ => answer + 1 + random.below(8),
        };
        Lent::new(random, length)
    }

    pub fn open(&mut self) -> &mut [u8] {
        &mut self.cells[..self.length]
    }
}

impl fmt::Debug for Lent {
    fn fmt(&self, f: &mut fmt::Formatter) -> fmt::Result {
        write!(f, "lent {} of these cells: {}", self.length, hex(&self.cells))
    }
}

/// The bytes, or the first ones of a long string.
fn hex(bytes: &[u8]) -> String {
    let shown = bytes.iter().take(SHOWN).map(|byte| format!("{byte:02x} "));
    shown.collect::<String>() + if bytes.len() > SHOWN { ".." } else { "" }
}

const SHOWN: usize = 96;

/// How many inputs each entry was compared on, in the comparison of a name.
pub struct Tally {
    name: &'static str,
    counts: Vec<(&'static str, usize)>,
    told: usize,
}

impl Tally {
    pub fn new(name: &'static str, entries: &[&'static str]) -> Tally {
        Tally { name, counts: entries.iter().map(|entry| (*entry, 0)).collect(), told: 0 }
    }

    /// Runs both programs on copies of the same lent outputs. Answers and all cells must be equal;
    /// otherwise the input and both outcomes are printed and the run fails.
    pub fn compare<const N: usize, A: PartialEq + fmt::Debug>(
        &mut self,
        entry: &str,
        input: &[&[u8]],
        lent: [Lent; N],
        second: impl FnOnce(&mut [Lent; N]) -> A,
        library: impl FnOnce(&mut [Lent; N]) -> A,
    ) {
        let (mut expected, mut given) = (lent.clone(), lent);
        let answers = (second(&mut expected), library(&mut given));
        let row = self.counts.iter_mut().find(|row| row.0 == entry);
        row.expect("the tally lacks an entry").1 += 1;
        if answers.0 == answers.1 && expected == given {
            return;
        }
        println!("{entry} differs on");
        input.iter().for_each(|slice| println!("  {} bytes: {}", slice.len(), hex(slice)));
        println!("expected {:?}\n  {expected:?}", answers.0);
        println!("given    {:?}\n  {given:?}", answers.1);
        for (expected, given) in expected.iter().zip(&given) {
            let mut cells = expected.cells.iter().zip(&given.cells);
            if let Some(cell) = cells.position(|(expected, given)| expected != given) {
                println!("the first cell that differs is {cell} of {} lent", expected.length);
            }
        }
        std::process::exit(1);
    }

    /// Tells how many inputs a part of the run had.
    pub fn part(&mut self, part: &str) {
        let compared = self.inputs();
        println!("{}: {part}: {} inputs", self.name, compared - self.told);
        self.told = compared;
    }

    /// How many inputs there were.
    pub fn inputs(&self) -> usize {
        self.counts.iter().map(|row| row.1).sum()
    }

    /// How many of them an entry had.
    pub fn had(&self, entry: &str) -> usize {
        self.counts.iter().filter(|row| row.0 == entry).map(|row| row.1).sum()
    }

    /// Fails where an entry had fewer inputs than so many.
    pub fn hold_least(&self, entry: &str, least: usize) {
        let had = self.had(entry);
        println!("{}: {entry}: {had} inputs, at least {least} are asked for", self.name);
        if had < least {
            std::process::exit(1);
        }
    }

    /// The last line of a run without a difference.
    pub fn close(&self) {
        let rows: Vec<String> = self.counts.iter().map(|(e, n)| format!("{e} {n}")).collect();
        println!("no difference; inputs compared: {}", rows.join(", "));
    }
}
