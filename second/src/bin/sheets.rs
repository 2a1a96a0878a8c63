//! Compares the library's sheet check with the second program.

use second::answers::SheetAnswer;
use second::bisection::roots;
use second::finder::{Finder, Found};
use second::forests::{
    bytes, good_sheet, leaf, sheet_of_at_least, sheet_of_depths, sheet_of_size, Leaf,
};
use second::inputs::{self, Options};
use second::lent::Tally;
use second::random::Random;
use second::sheets::{samples_length, Sheets, MARK};
use second::sizes::*;
use second::worked;
use std::ops::Range;

extern "C" {
    fn rmk_sheet_check(sheet: *const u8, n: usize) -> SheetAnswer;
}

fn library(sheet: &[u8]) -> SheetAnswer {
    unsafe { rmk_sheet_check(sheet.as_ptr(), sheet.len()) }
}

/// The least number that two bytes do not hold.
const FAR: usize = 65_536;

struct Comparison<'a> {
    sheets: Sheets<'a>,
    random: Random,
    tally: Tally,
}

impl Comparison<'_> {
    fn sheet(&mut self, sheet: &[u8]) {
        let second = |_: &mut [_; 0]| self.sheets.check(sheet);
        let library = |_: &mut [_; 0]| library(sheet);
        self.tally.compare("sheet_check", &[sheet], [], second, library);
    }

    /// The sheet with one leaf replaced by others.
    fn replaced(&mut self, leaves: &[Leaf], at: usize, by: &[Leaf]) {
        self.sheet(&bytes(&[&leaves[..at], by, &leaves[at + 1..]].concat()));
    }

    /// A leaf dropped, doubled, exchanged with another, or another dimension's before it or instead.
    fn moved(&mut self, leaves: &[Leaf], at: usize) {
        let own = leaves[at].clone();
        self.replaced(leaves, at, &[]);
        self.replaced(leaves, at, &[own.clone(), own.clone()]);
        for other in [(at + 1) % leaves.len(), self.random.below(leaves.len())] {
            let mut exchanged = leaves.to_vec();
            exchanged.swap(at, other);
            self.sheet(&bytes(&exchanged));
        }
        let (d, depth) = self.random.one_of(&every_depth());
        let (root, path) = (roots(d)[0].clone(), inputs::good_path(&mut self.random, depth));
        let strange = leaf(&mut self.random, &root, &path);
        self.replaced(leaves, at, &[strange.clone()]);
        self.replaced(leaves, at, &[strange, own]);
    }

    /// A leaf replaced by its parent, by one child, by both in either order, or by a cell anywhere.
    fn resized(&mut self, leaves: &[Leaf], at: usize) {
        let Found { root, path } = &leaves[at].cell;
        let (d, depth) = (root.len(), path.len());
        if depth > 0 {
            let parent = leaf(&mut self.random, root, &path[..depth - 1]);
            self.replaced(leaves, at, &[parent]);
        }
        if depth < greatest_depth(d) {
            let steps = [0, 1].map(|which| [&path[..], &[which]].concat());
            let [zero, one] = steps.map(|path| leaf(&mut self.random, root, &path));
            self.replaced(leaves, at, &[zero.clone()]);
            self.replaced(leaves, at, &[one.clone()]);
            self.replaced(leaves, at, &[zero.clone(), one.clone()]);
            self.replaced(leaves, at, &[one, zero]);
        }
        let other = inputs::good_root(&mut self.random, d);
        let strange = leaf(&mut self.random, &other, path);
        self.replaced(leaves, at, &[strange]);
    }

    /// The sheet cut at every byte of a part, and with every byte there changed.
    fn damaged(&mut self, sheet: &[u8], part: Range<usize>, values: &[u8]) {
        part.clone().for_each(|end| self.sheet(&sheet[..end]));
        let mut changed = sheet.to_vec();
        for at in part {
            let noise = self.random.byte();
            for change in values.iter().chain(&[noise]) {
                changed[at] = sheet[at] ^ change;
                self.sheet(&changed);
            }
            changed[at] = sheet[at];
        }
    }

    /// Bytes after the completing leaf: noise, parts of a record, a record.
    fn lengthened(&mut self, leaves: &[Leaf]) {
        let sheet = bytes(leaves);
        for length in 0..40 {
            let noise = self.random.bytes(length);
            let shaped = inputs::noise(&mut self.random, length);
            self.sheet(&[&sheet[..], &noise].concat());
            self.sheet(&[&sheet[..], &MARK, &shaped].concat());
        }
        let again = leaves[self.random.below(leaves.len())].record.clone();
        (0..=again.len()).for_each(|end| self.sheet(&[&sheet[..], &again[..end]].concat()));
    }

    /// One good sheet of a dimension and depth, and all that is done to it.
    fn every_damage(&mut self, d: usize, depth: usize, values: &[u8]) {
        let leaves = good_sheet(&mut self.random, d, depth);
        self.sheet(&bytes(&leaves));
        for at in 0..leaves.len() {
            self.moved(&leaves, at);
            self.resized(&leaves, at);
        }
        self.lengthened(&leaves);
        let sheet = bytes(&leaves);
        self.damaged(&sheet, 0..sheet.len(), values);
    }

    /// A sheet whose last record begins at 65,536: an early end, or anything wrong with it, is refused
    /// there, and bytes after it a little past.
    fn at_far(&mut self, d: usize) {
        let last = MARK.len() + code_length(d, 0) + samples_length(d);
        let leaves = sheet_of_size(&mut self.random, d, FAR + last, 1);
        let sheet = bytes(&leaves);
        self.sheet(&sheet);
        self.moved(&leaves, leaves.len() - 1);
        self.resized(&leaves, leaves.len() - 1);
        self.damaged(&sheet, FAR..sheet.len(), &[1, 2, 128]);
        self.lengthened(&leaves);
    }

    /// A larger sheet, with damage to records that begin past 65,536.
    fn past_far(&mut self, d: usize) {
        let leaves = sheet_of_at_least(&mut self.random, d, FAR + FAR / 8, 0);
        let sheet = bytes(&leaves);
        self.sheet(&sheet);
        let mut end = 0;
        let across = leaves.iter().position(|leaf| {
            end += leaf.record.len();
            end > FAR
        });
        let first = across.expect("no record ends past it") + 1;
        for _ in 0..8 {
            let at = first + self.random.below(leaves.len() - first);
            self.moved(&leaves, at);
            self.resized(&leaves, at);
        }
        let at = FAR + self.random.below(sheet.len() - FAR - 64);
        self.damaged(&sheet, at..at + 64, &[1, 2, 128]);
    }

    /// Good sheets with 65,536 records and with more, and refusals that lie past so many.
    fn many(&mut self) {
        let leaves = sheet_of_depths(&mut self.random, 2, &[15, 15]);
        assert_eq!(leaves.len(), FAR);
        self.sheet(&bytes(&leaves));
        let leaves = sheet_of_depths(&mut self.random, 2, &[15, 16]);
        assert!(leaves.len() > FAR);
        self.sheet(&bytes(&leaves));
        for count in [FAR - 1, FAR, FAR + 1, leaves.len() - 1] {
            self.sheet(&bytes(&leaves[..count]));
        }
        self.replaced(&leaves, FAR, &[]);
        self.replaced(&leaves, FAR, &[leaves[FAR].clone(), leaves[FAR].clone()]);
        self.replaced(&leaves, leaves.len() - 1, &[leaves[0].clone()]);
        self.sheet(&bytes(&[&leaves[..], &leaves[..1]].concat()));
    }

    /// Inputs that every run has. Shallow sheets meet every change of every byte.
    fn fixed(&mut self) {
        let every_value: Vec<u8> = (1..=255).collect();
        for d in DIMENSIONS {
            (0..2).for_each(|depth| self.every_damage(d, depth, &every_value));
        }
        for (d, depth) in every_depth() {
            self.every_damage(d, depth, &[1, 2, 128]);
        }
        self.tally.part("every damage of a sheet");
        for d in DIMENSIONS {
            self.at_far(d);
            self.past_far(d);
        }
        self.tally.part("refusals past 65,535 bytes");
        self.many();
        self.tally.part("65,536 records and more");
    }

    /// As many more good sheets as were asked for, each also with one change, and noise.
    fn random(&mut self, count: usize) {
        let depths = every_depth();
        for n in 0..count {
            let (d, depth) = depths[n % depths.len()];
            let leaves = good_sheet(&mut self.random, d, depth);
            let mut sheet = bytes(&leaves);
            self.sheet(&sheet);
            let at = self.random.below(leaves.len());
            self.resized(&leaves, at);
            let at = self.random.below(sheet.len());
            sheet[at] = self.random.byte();
            self.sheet(&sheet);
            let noise = inputs::noise(&mut self.random, n % 40);
            self.sheet(&[&MARK[..], &noise].concat());
            self.sheet(&noise);
        }
        self.tally.part("random");
    }
}

fn main() {
    let options = Options::read(20_000);
    let finder = Finder::new();
    worked::check(&finder);
    let sheets = Sheets::new(&finder);
    let random = Random::new(options.seed);
    let tally = Tally::new("sheets", &["sheet_check"]);
    let mut comparison = Comparison { sheets, random, tally };
    comparison.fixed();
    comparison.random(options.count);
    comparison.tally.close();
}
