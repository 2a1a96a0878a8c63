//! Compares the library's crossing with the second program.

use second::answers::Crossed;
use second::codes::Code;
use second::crossing::{self, EveryCell};
use second::entries::Reading;
use second::finder::Finder;
use second::inputs::{self, Options, LOST};
use second::lent::{Lent, Tally};
use second::random::Random;
use second::sizes::*;
use second::worked;

extern "C" {
    fn rmk_cross(code: *const u8, n: usize, facet: u8, out: *mut u8, on: usize) -> Crossed;
}

fn library(code: &[u8], facet: u8, out: &mut [u8]) -> Crossed {
    unsafe { rmk_cross(code.as_ptr(), code.len(), facet, out.as_mut_ptr(), out.len()) }
}

/// How far past an answer lent outputs go.
const PAST: usize = 8;

struct Comparison {
    finder: Finder,
    random: Random,
    tally: Tally,
}

impl Comparison {
    fn cross(&mut self, code: &[u8], read: &Reading, facet: u8, lent: Lent) {
        let second = |[out]: &mut [Lent; 1]| crossing::cross(read, facet, out.open());
        let library = |[out]: &mut [Lent; 1]| library(code, facet, out.open());
        self.tally.compare("cross", &[code, &[facet]], [lent], second, library);
    }

    /// A facet of the code's dimension as a rule, else one above it.
    fn code(&mut self, code: &[u8]) {
        let above = code.first().map_or(0, |d| d % 8) as usize + 1;
        let facet = self.random.below(above) as u8;
        let facet = if self.random.once_in(16) { facet + above as u8 } else { facet };
        let facet = if self.random.once_in(64) { self.random.byte() } else { facet };
        let lent = Lent::near(&mut self.random, code.len().min(40));
        self.cross(code, &self.finder.read(code), facet, lent);
    }

    /// Every facet of every cell, against the list of all cells of that depth and against the geometry.
    fn every_facet(&mut self, d: usize, depth: usize) {
        let all = EveryCell::new(d, depth);
        for (number, found) in all.cells.iter().enumerate() {
            let code = Code::at(&found.root, &found.path).bytes();
            for facet in 0..=d as u8 {
                let listed = all.across(number, facet);
                assert_eq!(listed, crossing::across(found, facet));
                let lent = Lent::new(&mut self.random, code.len());
                let second = |[out]: &mut [Lent; 1]| crossing::answer(listed, out.open());
                let library = |[out]: &mut [Lent; 1]| library(&code, facet, out.open());
                self.tally.compare("cross", &[&code, &[facet]], [lent], second, library);
            }
        }
    }

    /// A good code, every facet and one above them, and outputs of every length from 0 past the answer.
    fn every_length(&mut self, d: usize, depth: usize) {
        let code = inputs::good_code(&mut self.random, d, depth);
        let read = self.finder.read(&code);
        for (facet, n) in (0..=d + 1).flat_map(|f| (0..=code.len() + PAST).map(move |n| (f, n))) {
            let lent = Lent::new(&mut self.random, n);
            self.cross(&code, &read, facet as u8, lent);
        }
    }

    /// Every value of `facet`, for good codes and others, with room enough and with too little.
    fn every_value(&mut self, d: usize, depth: usize) {
        for code in inputs::of_each_kind(&mut self.random, d, depth) {
            let read = self.finder.read(&code);
            let answer = code_length(d, depth);
            for facet in 0..=255 {
                let (more, less) = (self.random.below(PAST), 1 + self.random.below(answer));
                let lents = [answer + more, answer - less].map(|n| Lent::new(&mut self.random, n));
                lents.into_iter().for_each(|lent| self.cross(&code, &read, facet, lent));
            }
        }
    }

    /// Codes whose lengths seem good, and a good code with outputs that have room enough and seem not to,
    /// where only one or two bytes of a length are kept.
    fn narrowed(&mut self, d: usize, depth: usize) {
        let codes = inputs::narrowing_codes(&mut self.random, d, depth);
        codes.iter().for_each(|code| self.code(code));
        let code = inputs::good_code(&mut self.random, d, depth);
        let read = self.finder.read(&code);
        let outputs = LOST.iter().flat_map(|lost| (0..=code.len()).map(move |low| lost + low));
        for (n, facet) in outputs.flat_map(|n| (0..=d).map(move |facet| (n, facet))) {
            let lent = Lent::new(&mut self.random, n);
            self.cross(&code, &read, facet as u8, lent);
        }
    }

    /// A good code with each byte changed to each other value.
    fn every_change(&mut self, d: usize, depth: usize) {
        let code = inputs::good_code(&mut self.random, d, depth);
        for (at, value) in (0..code.len()).flat_map(|at| (0..=255).map(move |v| (at, v))) {
            let mut changed = code.clone();
            changed[at] = value;
            self.code(&changed);
        }
    }

    /// Inputs that every run has.
    fn fixed(&mut self) {
        for (d, deepest) in [(2, 8), (3, 7), (4, 6)] {
            (0..=deepest).for_each(|depth| self.every_facet(d, depth));
        }
        for (d, depth) in every_depth() {
            self.every_length(d, depth);
            self.every_change(d, depth);
        }
        self.tally.part("every facet of shallow cells, near length and change of a byte");
        every_depth().iter().for_each(|(d, depth)| self.every_value(*d, *depth));
        self.tally.part("every value of facet");
        every_depth().iter().for_each(|(d, depth)| self.narrowed(*d, *depth));
        self.tally.part("lengths past 255 and 65,535");
    }

    /// As many good codes as were asked for, of every dimension and depth in turn, and a bad one beside
    /// every fourth.
    fn random(&mut self, count: usize) {
        let depths = every_depth();
        for n in 0..count {
            let (d, depth) = depths[n % depths.len()];
            let code = inputs::good_code(&mut self.random, d, depth);
            self.code(&code);
            if n % 4 == 0 {
                let bad = inputs::any_code(&mut self.random, n / 4, &depths);
                self.code(&bad);
            }
        }
        self.tally.part("random");
    }
}

fn main() {
    let options = Options::read(1_000_000);
    let finder = Finder::new();
    worked::check(&finder);
    let random = Random::new(options.seed);
    let mut comparison = Comparison { finder, random, tally: Tally::new("cross", &["cross"]) };
    comparison.fixed();
    comparison.random(options.count);
    comparison.tally.close();
}
