//! Compares the code entries of the library with the second program.

use second::answers::{PathWritten, Written};
use second::bisection::roots;
use second::codes::Code;
use second::entries::{self, Reading};
use second::finder::Finder;
use second::inputs::{self, Options, LOST};
use second::lent::{Lent, Tally};
use second::random::Random;
use second::sizes::*;
use second::worked;

/// The library's entries, each byte slice as a pointer and a length.
mod library {
    use super::{PathWritten, Written};

    type In = *const u8;
    type Out = *mut u8;

    extern "C" {
        fn rmk_code_check(code: In, n: usize) -> u8;
        fn rmk_path_to_code(r: In, rn: usize, p: In, pn: usize, code: Out, n: usize) -> Written;
        fn rmk_code_to_path(c: In, n: usize, r: Out, rn: usize, p: Out, pn: usize) -> PathWritten;
        fn rmk_vertices(code: In, n: usize, points: Out, pn: usize) -> Written;
        fn rmk_child(code: In, n: usize, which: u8, out: Out, on: usize) -> Written;
        fn rmk_parent(code: In, n: usize, out: Out, on: usize) -> Written;
    }

    pub fn code_check(c: &[u8]) -> u8 {
        unsafe { rmk_code_check(c.as_ptr(), c.len()) }
    }

    pub fn path_to_code(r: &[u8], p: &[u8], c: &mut [u8]) -> Written {
        let (rn, pn, n) = (r.len(), p.len(), c.len());
        unsafe { rmk_path_to_code(r.as_ptr(), rn, p.as_ptr(), pn, c.as_mut_ptr(), n) }
    }

    pub fn code_to_path(c: &[u8], r: &mut [u8], p: &mut [u8]) -> PathWritten {
        let (n, rn, pn) = (c.len(), r.len(), p.len());
        unsafe { rmk_code_to_path(c.as_ptr(), n, r.as_mut_ptr(), rn, p.as_mut_ptr(), pn) }
    }

    pub fn vertices(c: &[u8], p: &mut [u8]) -> Written {
        unsafe { rmk_vertices(c.as_ptr(), c.len(), p.as_mut_ptr(), p.len()) }
    }

    pub fn child(c: &[u8], which: u8, o: &mut [u8]) -> Written {
        unsafe { rmk_child(c.as_ptr(), c.len(), which, o.as_mut_ptr(), o.len()) }
    }

    pub fn parent(c: &[u8], o: &mut [u8]) -> Written {
        unsafe { rmk_parent(c.as_ptr(), c.len(), o.as_mut_ptr(), o.len()) }
    }
}

const ENTRIES: [&str; 6] =
    ["code_check", "path_to_code", "code_to_path", "vertices", "child", "parent"];

/// Bytes of the longest answers, and how far past an answer lent outputs go.
const LONGEST_CODE: usize = 2 + MOST_AXES + HALVINGS;
const PAST: usize = 8;

struct Comparison {
    finder: Finder,
    random: Random,
    tally: Tally,
}

impl Comparison {
    fn path_to_code(&mut self, root: &[u8], path: &[u8], lent: Lent) {
        let second = |[out]: &mut [Lent; 1]| entries::path_to_code(root, path, out.open());
        let library = |[out]: &mut [Lent; 1]| library::path_to_code(root, path, out.open());
        self.tally.compare("path_to_code", &[root, path], [lent], second, library);
    }

    fn code_check(&mut self, code: &[u8], read: &Reading) {
        let second = |_: &mut [Lent; 0]| entries::code_check(read);
        let library = |_: &mut [Lent; 0]| library::code_check(code);
        self.tally.compare("code_check", &[code], [], second, library);
    }

    fn code_to_path(&mut self, code: &[u8], read: &Reading, lent: [Lent; 2]) {
        let second =
            |[root, path]: &mut [Lent; 2]| entries::code_to_path(read, root.open(), path.open());
        let library =
            |[root, path]: &mut [Lent; 2]| library::code_to_path(code, root.open(), path.open());
        self.tally.compare("code_to_path", &[code], lent, second, library);
    }

    fn vertices(&mut self, code: &[u8], read: &Reading, lent: Lent) {
        let second = |[out]: &mut [Lent; 1]| entries::vertices(read, out.open());
        let library = |[out]: &mut [Lent; 1]| library::vertices(code, out.open());
        self.tally.compare("vertices", &[code], [lent], second, library);
    }

    fn child(&mut self, code: &[u8], read: &Reading, which: u8, lent: Lent) {
        let second = |[out]: &mut [Lent; 1]| entries::child(read, which, out.open());
        let library = |[out]: &mut [Lent; 1]| library::child(code, which, out.open());
        self.tally.compare("child", &[code, &[which]], [lent], second, library);
    }

    fn parent(&mut self, code: &[u8], read: &Reading, lent: Lent) {
        let second = |[out]: &mut [Lent; 1]| entries::parent(read, out.open());
        let library = |[out]: &mut [Lent; 1]| library::parent(code, out.open());
        self.tally.compare("parent", &[code], [lent], second, library);
    }

    /// All entries on one byte string, with outputs whose lengths are near their answers'.
    fn code(&mut self, code: &[u8]) {
        let read = self.finder.read(code);
        let random = &mut self.random;
        let deepest = (MOST_AXES, greatest_depth(MOST_AXES));
        let (d, depth) = read.as_ref().map_or(deepest, |f| (f.root.len(), f.path.len()));
        let below = code_length(d, depth + 1);
        let above = code_length(d, depth.saturating_sub(1));
        let outputs = [d, depth, 2 * d * (d + 1), below, above];
        let [root, path, points, child, parent] = outputs.map(|n| Lent::near(random, n));
        let which = random.one_of(&[0, 0, 0, 1, 1, 1, 2, 255]);
        self.code_check(code, &read);
        self.code_to_path(code, &read, [root, path]);
        self.vertices(code, &read, points);
        self.child(code, &read, which, child);
        self.parent(code, &read, parent);
    }

    /// A good code with outputs of every length from 0 past the answer.
    fn every_length(&mut self, d: usize, depth: usize) {
        let code = inputs::good_code(&mut self.random, d, depth);
        let read = self.finder.read(&code);
        for n in 0..=2 * d * (d + 1) + PAST {
            let lent = Lent::new(&mut self.random, n);
            self.vertices(&code, &read, lent);
        }
        for n in 0..=LONGEST_CODE + PAST {
            let lents = [0; 4].map(|_| Lent::new(&mut self.random, n));
            let [zero, one, parent, encoded] = lents;
            self.child(&code, &read, 0, zero);
            self.child(&code, &read, 1, one);
            self.parent(&code, &read, parent);
            let found = read.as_ref().expect("a good code is refused");
            self.path_to_code(&found.root, &found.path, encoded);
        }
        for (rn, pn) in (0..=d + 2).flat_map(|rn| (0..=depth + PAST).map(move |pn| (rn, pn))) {
            let lent = [rn, pn].map(|n| Lent::new(&mut self.random, n));
            self.code_to_path(&code, &read, lent);
        }
    }

    /// A good code with each byte changed to each other value, cut at each length, and lengthened.
    fn every_change(&mut self, d: usize, depth: usize) {
        let code = inputs::good_code(&mut self.random, d, depth);
        for (at, value) in (0..code.len()).flat_map(|at| (0..=255).map(move |v| (at, v))) {
            let mut changed = code.clone();
            changed[at] = value;
            self.code(&changed);
        }
        (0..code.len()).for_each(|length| self.code(&code[..length]));
        for longer in 1..=PAST {
            let added = self.random.bytes(longer);
            self.code(&[&code[..], &added].concat());
            self.code(&[&code[..], &vec![0; longer]].concat());
        }
    }

    /// Every value of `which`, for good codes and others, with room enough and with too little.
    fn every_which(&mut self, d: usize, depth: usize) {
        for code in inputs::of_each_kind(&mut self.random, d, depth) {
            let read = self.finder.read(&code);
            let answer = code_length(d, depth + 1);
            for which in 0..=255 {
                let (more, less) = (self.random.below(PAST), 1 + self.random.below(answer));
                let lents = [answer + more, answer - less].map(|n| Lent::new(&mut self.random, n));
                lents.into_iter().for_each(|lent| self.child(&code, &read, which, lent));
            }
        }
    }

    /// Roots and paths whose lengths are good ones, or nearly, where only one or two bytes of a length
    /// are kept; and both at once.
    fn narrowed_paths(&mut self, d: usize, depth: usize) {
        let (root, path) =
            (inputs::good_root(&mut self.random, d), inputs::good_path(&mut self.random, depth));
        let bad_root = vec![1; d];
        for lost in LOST {
            let depths = [0, 1, depth.saturating_sub(1), depth, depth + 1, greatest_depth(d)];
            let long_roots: Vec<_> = (0..=MOST_AXES + 1)
                .flat_map(|low| inputs::longer(&mut self.random, &root, lost + low))
                .collect();
            let long_paths: Vec<_> = depths
                .iter()
                .flat_map(|low| inputs::longer(&mut self.random, &path, lost + low))
                .collect();
            long_roots.iter().for_each(|root| self.with_room(root, &path));
            for long_path in &long_paths {
                let long_root = &long_roots[self.random.below(long_roots.len())];
                let roots = [&root, &bad_root, long_root];
                roots.iter().for_each(|root| self.with_room(root, long_path));
            }
        }
    }

    fn with_room(&mut self, root: &[u8], path: &[u8]) {
        let lent = Lent::new(&mut self.random, LONGEST_CODE);
        self.path_to_code(root, path, lent);
    }

    /// A good code with outputs that have room enough, and seem not to where only one or two bytes of
    /// their lengths are kept.
    fn narrowed_outputs(&mut self, d: usize, depth: usize) {
        let code = inputs::good_code(&mut self.random, d, depth);
        let read = self.finder.read(&code);
        let found = read.as_ref().expect("a good code is refused").clone();
        for lost in LOST {
            for n in 0..=2 * d * (d + 1) {
                let lent = Lent::new(&mut self.random, lost + n);
                self.vertices(&code, &read, lent);
            }
            for n in 0..=code_length(d, depth + 1) {
                let lents = [0; 3].map(|_| Lent::new(&mut self.random, lost + n));
                let [child, parent, encoded] = lents;
                self.child(&code, &read, (n % 2) as u8, child);
                self.parent(&code, &read, parent);
                self.path_to_code(&found.root, &found.path, encoded);
            }
            for n in 0..=depth {
                let roots = [d, lost + n % (d + 1), d - 1];
                for (root, path) in roots.into_iter().zip([lost + n, depth, lost + n]) {
                    let lent = [root, path].map(|n| Lent::new(&mut self.random, n));
                    self.code_to_path(&code, &read, lent);
                }
            }
        }
    }

    /// Every cell of a dimension at a depth, by its root and path and by its code.
    fn every_cell(&mut self, d: usize, depth: usize) {
        for root in roots(d) {
            for number in 0..1u32 << depth {
                let path: Vec<u8> = (0..depth).map(|t| (number >> t & 1) as u8).collect();
                let code = Code::at(&root, &path).bytes();
                let lent = Lent::near(&mut self.random, code.len());
                self.path_to_code(&root, &path, lent);
                self.code(&code);
            }
        }
    }

    /// Every byte string of at most two bytes.
    fn every_short_string(&mut self) {
        self.code(&[]);
        for first in 0..=255 {
            self.code(&[first]);
            (0..=255).for_each(|second| self.code(&[first, second]));
        }
    }

    /// A root and a path of the given lengths, good where they can be and good or bad at random.
    fn path_lengths(&mut self, axes: usize, depth: usize) {
        let root = inputs::any_root(&mut self.random, axes);
        let path = inputs::any_path(&mut self.random, depth);
        let length = 2 + axes + depth / axes.max(1);
        let lent = Lent::near(&mut self.random, length.min(LONGEST_CODE));
        self.path_to_code(&root, &path, lent);
    }

    /// Inputs that every run has.
    fn fixed(&mut self) {
        worked::codes().iter().for_each(|code| self.code(code));
        self.every_short_string();
        for (d, deepest) in [(2, 8), (3, 7), (4, 6)] {
            (0..=deepest).for_each(|depth| self.every_cell(d, depth));
        }
        for (d, depth) in every_depth() {
            self.every_length(d, depth);
            self.every_change(d, depth);
        }
        for (axes, depth) in (0..=6).flat_map(|axes| (0..=60).map(move |depth| (axes, depth))) {
            (0..16).for_each(|_| self.path_lengths(axes, depth));
        }
        self.tally.part("every short string, shallow cell, near length and change of a byte");
        every_depth().iter().for_each(|(d, depth)| self.every_which(*d, *depth));
        self.tally.part("every value of which");
        for (d, depth) in every_depth() {
            let codes = inputs::narrowing_codes(&mut self.random, d, depth);
            codes.iter().for_each(|code| self.code(code));
            self.narrowed_paths(d, depth);
            self.narrowed_outputs(d, depth);
        }
        self.tally.part("lengths past 255 and 65,535");
    }

    /// As many more as were asked for, of every kind in turn.
    fn random(&mut self, count: usize) {
        let depths = every_depth();
        for n in 0..count {
            let code = inputs::any_code(&mut self.random, n, &depths);
            self.code(&code);
            let (d, depth) = depths[n % depths.len()];
            self.path_lengths(d, depth);
        }
        self.tally.part("random");
    }
}

fn main() {
    let options = Options::read(1_000_000);
    let finder = Finder::new();
    worked::check(&finder);
    let random = Random::new(options.seed);
    let mut comparison = Comparison { finder, random, tally: Tally::new("run", &ENTRIES) };
    comparison.fixed();
    comparison.random(options.count);
    comparison.tally.close();
}
