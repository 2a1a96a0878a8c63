//! Every entry at every length, its inputs and its lent outputs beside unreadable pages; each outcome is
//! judged by the second program, and so is each cell that is lent or stands beside those lent.

use crate::calls::{library, told, Answer, Entry, Given, ENTRIES};
use crate::judge::{keeps_contract, Judge};
use crate::pages::{self, Edge, Pages};
use crate::sheets::{some_sheet, KINDS};
use second::forests::damaged;
use second::inputs::{self, any_path, any_root};
use second::random::Random;
use second::{points, sizes::*};

/// The lengths tried go up to these.
pub const CODE: usize = 40;
pub const PATH: usize = 60;
pub const ROOT: usize = 8;
pub const OUTPUT: usize = 64;
pub const POINT: usize = 12;

/// How often codes of a length are checked alone: the check has no output to vary.
const CHECKED: usize = 40;

/// Cells of an output with those beside it that are watched.
const CELLS: usize = OUTPUT + 64;

/// How inputs and outputs stand in memory.
pub trait Places {
    /// The library's answer on the cells, of which the first or the last so many are lent; and the cells after.
    fn call(&mut self, given: &Given, cells: [&[u8]; 2], lent: [usize; 2], edge: Edge) -> Outcome;
}

pub struct Outcome {
    pub answer: Answer,
    pub cells: [Vec<u8>; 2],
}

/// Beside unreadable pages.
pub struct Guarded {
    inputs: [Pages; 2],
    outputs: [Pages; 2],
}

impl Guarded {
    pub fn new() -> Guarded {
        let inputs = [Pages::of_input(), Pages::of_input()];
        Guarded { inputs, outputs: [Pages::of_output(), Pages::of_output()] }
    }
}

impl Places for Guarded {
    fn call(&mut self, given: &Given, cells: [&[u8]; 2], lent: [usize; 2], edge: Edge) -> Outcome {
        let [one, two] = &mut self.inputs;
        let given = Given {
            entry: given.entry,
            one: one.put(given.one, edge),
            two: two.put(given.two, edge),
            which: given.which,
        };
        let [out, other] = &mut self.outputs;
        let first = out.lend(cells[0], lent[0], edge);
        let second = other.lend(cells[1], lent[1], edge);
        pages::set_under_way(&given, lent);
        let answer = library(&given, first, second);
        let after = [out.cells(CELLS, edge).to_vec(), other.cells(CELLS, edge).to_vec()];
        Outcome { answer, cells: after }
    }
}

/// Places of the heap that are just as long as each string: what a memory checker watches.
pub struct Heap;

impl Heap {
    /// The same call with outputs that hold nothing yet: a checker sees where an answer comes of what they hold.
    fn unset(given: &Given, lent: [usize; 2], answer: &Answer, outputs: &[Vec<u8>; 2]) {
        let [mut out, mut other] = lent.map(unset_cells);
        let again = library(given, &mut out, &mut other);
        let [first, second] = answer.written(given.entry);
        let same = out[..first] == outputs[0][..first] && other[..second] == outputs[1][..second];
        assert!(again == *answer && same, "{} depends on what is lent", told(given, lent));
    }
}

/// Cells that were never written. They are bytes, of which each pattern is one.
#[allow(clippy::uninit_vec)]
fn unset_cells(count: usize) -> Vec<u8> {
    let mut cells = Vec::with_capacity(count);
    unsafe { cells.set_len(count) };
    cells
}

impl Places for Heap {
    fn call(&mut self, given: &Given, cells: [&[u8]; 2], lent: [usize; 2], edge: Edge) -> Outcome {
        let (one, two) = (given.one.to_vec(), given.two.to_vec());
        let mut outputs = [0, 1].map(|i| cells[i][lent_cells(lent[i], edge)].to_vec());
        let [out, other] = &mut outputs;
        let given = Given { one: &one, two: &two, ..*given };
        let answer = library(&given, out, other);
        Heap::unset(&given, lent, &answer, &outputs);
        let mut after = cells.map(|cells| cells.to_vec());
        (0..2).for_each(|i| after[i][lent_cells(lent[i], edge)].copy_from_slice(&outputs[i]));
        Outcome { answer, cells: after }
    }
}

/// Which of all cells are lent.
fn lent_cells(lent: usize, edge: Edge) -> std::ops::Range<usize> {
    if edge == Edge::Begin {
        0..lent
    } else {
        CELLS - lent..CELLS
    }
}

pub struct Edges<'a, P: Places> {
    pub places: P,
    pub judge: &'a mut Judge,
    pub random: Random,
    pub counts: [u64; ENTRIES.len()],
    /// One in so many of the combinations is tried; 1 for all.
    pub part: usize,
}

impl<P: Places> Edges<'_, P> {
    fn cells(&mut self) -> Vec<u8> {
        let mut cells = vec![0; CELLS];
        let next = |part: &mut [u8]| part.copy_from_slice(&self.random.next().to_le_bytes());
        cells.chunks_mut(8).for_each(next);
        cells
    }

    /// One call, from both edges.
    pub fn both(&mut self, given: &Given, lent: [usize; 2]) {
        if self.part > 1 && !self.random.once_in(self.part) {
            return;
        }
        for edge in [Edge::Begin, Edge::End] {
            self.one(given, lent, edge);
        }
    }

    fn one(&mut self, given: &Given, lent: [usize; 2], edge: Edge) {
        let mut expected = [self.cells(), self.cells()];
        let got = self.places.call(given, [&expected[0], &expected[1]], lent, edge);
        self.counts[given.entry as usize] += 1;
        let [first, second] = &mut expected;
        let out = &mut first[lent_cells(lent[0], edge)];
        let other = &mut second[lent_cells(lent[1], edge)];
        let answer = self.judge.answer(given, out, other);
        let kept = keeps_contract(given, &got.answer, lent);
        if got.answer != answer || got.cells != expected || !kept {
            println!("{} at {edge:?} differs", told(given, lent));
            println!("expected {answer:?}\ngiven    {:?}, contract kept: {kept}", got.answer);
            (0..2).for_each(|i| tell_cells(&expected[i], &got.cells[i], lent_cells(lent[i], edge)));
            std::process::exit(1);
        }
    }

    fn code(&mut self, entry: Entry, code: &[u8], which: u8, lent: [usize; 2]) {
        self.both(&Given { entry, one: code, two: &[], which }, lent);
    }

    /// A byte string as a code, to every entry that takes one, with outputs of every length.
    fn every_output(&mut self, code: &[u8]) {
        self.code(Entry::CodeCheck, code, 0, [0, 0]);
        for lent in 0..=OUTPUT {
            self.code(Entry::Vertices, code, 0, [lent, 0]);
            self.code(Entry::Parent, code, 0, [lent, 0]);
            (0..=2).for_each(|which| self.code(Entry::Child, code, which, [lent, 0]));
            (0..=5).for_each(|facet| self.code(Entry::Cross, code, facet, [lent, 0]));
            let any = self.random.byte();
            self.code(Entry::Child, code, any, [lent, 0]);
            self.code(Entry::Cross, code, any, [lent, 0]);
            (0..=ROOT).for_each(|root| self.code(Entry::CodeToPath, code, 0, [root, lent]));
        }
    }

    /// Byte strings of every length: good codes of that length, good ones cut or lengthened to it or with a byte
    /// changed, and any bytes.
    fn codes(&mut self) {
        for length in 0..=CODE {
            for code in codes_of_length(&mut self.random, length) {
                self.every_output(&code);
            }
            for _ in 0..CHECKED {
                let codes = codes_of_length(&mut self.random, length);
                codes.iter().for_each(|code| self.code(Entry::CodeCheck, code, 0, [0, 0]));
            }
        }
    }

    /// Roots and paths of every length, outputs of every length.
    fn paths(&mut self) {
        for (root, path) in (0..=ROOT).flat_map(|r| (0..=PATH).map(move |p| (r, p))) {
            let root = any_root(&mut self.random, root);
            let path = any_path(&mut self.random, path);
            for lent in 0..=OUTPUT {
                let given = Given { entry: Entry::PathToCode, one: &root, two: &path, which: 0 };
                self.both(&given, [lent, 0]);
            }
        }
    }

    /// All entries that take a sheet; the two that check it alone only where nothing else varies.
    fn sheet(&mut self, sheet: &[u8], point: &[u8], lent: usize) {
        let given = Given { entry: Entry::LeafAt, one: sheet, two: point, which: 0 };
        self.both(&given, [lent, 0]);
        if lent == 0 {
            self.both(&Given { entry: Entry::ValueAt, ..given }, [0, 0]);
            self.both(&Given { entry: Entry::SlopeAt, ..given }, [0, 0]);
        }
    }

    fn sheet_alone(&mut self, sheet: &[u8]) {
        let given = Given { entry: Entry::SheetCheck, one: sheet, two: &[], which: 0 };
        self.both(&given, [0, 0]);
        self.both(&Given { entry: Entry::Compatible, ..given }, [0, 0]);
    }

    /// A good sheet with points and outputs of every length; cut at every length; lengthened; a byte changed.
    fn sheets(&mut self, d: usize, sheet: &[u8]) {
        let any = points::anywhere(&mut self.random, d);
        let point = points::bytes(&any, d);
        self.sheet_alone(sheet);
        let long = [&point[..], &[0; POINT]].concat();
        for (length, lent) in (0..=POINT).flat_map(|n| (0..=OUTPUT).map(move |lent| (n, lent))) {
            self.sheet(sheet, &long[..length], lent);
        }
        for kind in 0..16 {
            let other = damaged(&mut self.random, sheet, kind);
            self.sheet_alone(&other);
            self.sheet(&other, &point, kind);
            self.sheet(&other, &point, 0);
        }
        for length in 0..sheet.len() {
            let cut = &sheet[..length];
            self.sheet_alone(cut);
            self.sheet(cut, &point, 0);
            self.sheet(cut, &point[..length % (point.len() + 1)], length % (OUTPUT + 1));
        }
    }

    fn some_sheets(&mut self, longest: usize) {
        for d in DIMENSIONS {
            for kind in 0..KINDS {
                let sheet = some_sheet(&mut self.random, d, kind);
                self.sheets(d, &sheet[..sheet.len().min(longest)]);
            }
        }
    }

    /// Every kind of input once.
    pub fn round(&mut self, longest: usize) {
        self.codes();
        self.paths();
        self.some_sheets(longest);
    }
}

fn codes_of_length(random: &mut Random, length: usize) -> Vec<Vec<u8>> {
    let mut codes = vec![inputs::noise(random, length), random.bytes(length)];
    let all = every_depth();
    let (d, depth) = all[random.below(all.len())];
    let mut cut = inputs::good_code(random, d, depth);
    cut.resize(length, 0);
    codes.push(cut);
    for d in DIMENSIONS {
        let depths: Vec<usize> =
            (0..=greatest_depth(d)).filter(|depth| code_length(d, *depth) == length).collect();
        if !depths.is_empty() {
            let depth = depths[random.below(depths.len())];
            let good = inputs::good_code(random, d, depth);
            let mut changed = good.clone();
            let at = random.below(length);
            changed[at] ^= 1 << random.below(8);
            codes.extend([good, changed]);
        }
    }
    codes
}

fn tell_cells(expected: &[u8], got: &[u8], lent: std::ops::Range<usize>) {
    if let Some(at) = expected.iter().zip(got).position(|(e, g)| e != g) {
        println!("cell {at} is {:02x}, not {:02x}; lent are {lent:?}", got[at], expected[at]);
    }
}
