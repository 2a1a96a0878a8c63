//! Compares the library's leaf, grey value and slope at a point with the second program.

use second::answers::{LeafAnswer, SlopeAnswer, ValueAnswer};
use second::bisection::{Cell, Point};
use second::finder::Finder;
use second::forests::{
    self, bytes, deepest_sheet, good_sheet, sheet_of_at_least, sheet_of_depths, Leaf,
};
use second::inputs::{self, Options, LOST};
use second::lent::{Lent, Tally};
use second::points;
use second::queries::{self, Asked};
use second::random::Random;
use second::sheets::{samples_length, Sheets};
use second::sizes::*;
use second::worked;

mod library {
    use super::{LeafAnswer, SlopeAnswer, ValueAnswer};

    type In = *const u8;

    extern "C" {
        fn rmk_leaf_at(s: In, sn: usize, p: In, pn: usize, w: *mut u8, wn: usize) -> LeafAnswer;
        fn rmk_value_at(s: In, sn: usize, p: In, pn: usize) -> ValueAnswer;
        fn rmk_slope_at(s: In, sn: usize, p: In, pn: usize) -> SlopeAnswer;
    }

    pub fn leaf_at(s: &[u8], p: &[u8], w: &mut [u8]) -> LeafAnswer {
        let (sn, pn, wn) = (s.len(), p.len(), w.len());
        unsafe { rmk_leaf_at(s.as_ptr(), sn, p.as_ptr(), pn, w.as_mut_ptr(), wn) }
    }

    pub fn value_at(s: &[u8], p: &[u8]) -> ValueAnswer {
        unsafe { rmk_value_at(s.as_ptr(), s.len(), p.as_ptr(), p.len()) }
    }

    pub fn slope_at(s: &[u8], p: &[u8]) -> SlopeAnswer {
        unsafe { rmk_slope_at(s.as_ptr(), s.len(), p.as_ptr(), p.len()) }
    }
}

/// How far past the weights lent outputs go, and points asked for in one random sheet.
const PAST: usize = 8;
const POINTS: usize = 100;

/// The least number that two bytes do not hold.
const FAR: usize = 65_536;

/// What a slope on an axis can be, and what is called steep: no slope is twice so much.
const SLOPES: [&str; 4] = ["below 0", "zero", "above 0", "steep"];
const STEEP: f64 = 32_768.0;

/// A sheet's bytes, and what the second program read in them. A refused one has any dimension.
struct Sheet {
    bytes: Vec<u8>,
    asked: Asked,
    d: usize,
}

struct Comparison<'a> {
    sheets: Sheets<'a>,
    random: Random,
    tally: Tally,
    slopes: [usize; SLOPES.len()],
}

impl Comparison<'_> {
    fn read(&self, bytes: Vec<u8>, d: usize) -> Sheet {
        Sheet { asked: Asked::new(&self.sheets, &bytes), bytes, d }
    }

    /// All entries at one point, the leaf with an output of the length given.
    fn lending(&mut self, sheet: &Sheet, point: &[u8], length: usize) {
        let (found, s) = (sheet.asked.find(point), &sheet.bytes[..]);
        let lent = Lent::new(&mut self.random, length);
        let second = |[w]: &mut [Lent; 1]| queries::leaf_at(&found, w.open());
        let library = |[w]: &mut [Lent; 1]| library::leaf_at(s, point, w.open());
        self.tally.compare("leaf_at", &[s, point], [lent], second, library);
        let second = |_: &mut [Lent; 0]| queries::value_at(&found);
        let library = |_: &mut [Lent; 0]| library::value_at(s, point);
        self.tally.compare("value_at", &[s, point], [], second, library);
        let slope = queries::slope_at(&found);
        let library = |_: &mut [Lent; 0]| library::slope_at(s, point);
        self.tally.compare("slope_at", &[s, point], [], |_| slope, library);
        self.count_slopes(&slope, sheet.d);
    }

    fn count_slopes(&mut self, answer: &SlopeAnswer, d: usize) {
        for slope in answer.slope[..d].iter().filter(|_| answer.refusal == DONE) {
            let kinds = [*slope < 0.0, *slope == 0.0, *slope > 0.0, slope.abs() >= STEEP];
            self.slopes.iter_mut().zip(kinds).for_each(|(count, is)| *count += is as usize);
        }
    }

    /// Fails where a kind of slope was not met.
    fn hold_slopes(&self) {
        let told = |(kind, count): (&str, usize)| format!("{count} {kind}");
        let rows: Vec<String> = SLOPES.into_iter().zip(self.slopes).map(told).collect();
        println!("queries: slopes on an axis: {}", rows.join(", "));
        assert!(self.slopes.iter().all(|count| *count > 0), "a kind of slope is not met");
    }

    /// With room as a rule.
    fn bytes(&mut self, sheet: &Sheet, point: &[u8]) {
        let (answer, past) = (2 * (sheet.d + 1), self.random.below(PAST));
        let short = self.random.once_in(16);
        let length = if short { self.random.below(answer) } else { answer + past };
        self.lending(sheet, point, length);
    }

    fn point(&mut self, sheet: &Sheet, point: &Point) {
        self.bytes(sheet, &points::bytes(point, sheet.d));
    }

    /// Outputs of every length from 0 past the weights; and with room, where one or two bytes of the length
    /// say that there is none.
    fn every_room(&mut self, sheet: &Sheet, point: &[u8]) {
        let weights = 2 * (sheet.d + 1);
        let few = 0..=weights + PAST;
        let many = LOST.iter().flat_map(|lost| (0..=weights).map(move |low| lost + low));
        few.chain(many).for_each(|length| self.lending(sheet, point, length));
    }

    /// A point cut and lengthened, also to lengths that look good in one byte or two; with and without a
    /// coordinate outside the cube.
    fn every_length(&mut self, sheet: &Sheet, point: &[u8]) {
        let long = [point, &[0; 2 * MOST_AXES]].concat();
        (0..=long.len()).for_each(|length| self.bytes(sheet, &long[..length]));
        for length in LOST.iter().flat_map(|lost| [0, 1, point.len()].map(|low| lost + low)) {
            let points = inputs::longer(&mut self.random, point, length);
            points.iter().for_each(|point| self.bytes(sheet, point));
        }
        self.bytes(sheet, &[&[255, 255], point].concat());
        self.lending(sheet, &[&[255, 255], &point[2..]].concat(), 0);
    }

    /// Samples at their ends in half of the sheets: all zero, all the greatest, or either in each leaf or at
    /// each vertex.
    fn flattened(&mut self, leaves: &mut [Leaf]) {
        let ends: [&[u8]; 8] = [&[], &[], &[], &[], &[0], &[255], &[0, 255], &[0, 255]];
        let (values, each_vertex) = (self.random.one_of(&ends), self.random.once_in(2));
        for leaf in leaves.iter_mut().filter(|_| !values.is_empty()) {
            let all = samples_length(leaf.cell.root.len());
            let (from, alike) = (leaf.record.len() - all, if each_vertex { 2 } else { all });
            let parts = leaf.record[from..].chunks_mut(alike);
            parts.for_each(|part| part.fill(self.random.one_of(values)));
        }
    }

    /// The sheet cut, lengthened or with a byte changed: asked for a point in the cube, one outside it and
    /// one of no coordinates.
    fn damaged(&mut self, sheet: &Sheet, kind: usize) {
        let bytes = forests::damaged(&mut self.random, &sheet.bytes, kind);
        let damaged = self.read(bytes, sheet.d);
        let inside = points::anywhere(&mut self.random, sheet.d);
        self.point(&damaged, &inside);
        self.point(&damaged, &points::around(&inside, sheet.d)[0]);
        self.lending(&damaged, &[], 0);
    }

    /// A sheet at every vertex and every middle of an edge of every leaf; and all that can be wrong with a
    /// point, an output or the sheet.
    fn every_leaf(&mut self, d: usize, mut leaves: Vec<Leaf>) {
        self.flattened(&mut leaves);
        let sheet = self.read(bytes(&leaves), d);
        for cell in cells(&leaves) {
            points::vertices_and_middles(&cell).iter().for_each(|point| self.point(&sheet, point));
        }
        for corner in points::corners(d) {
            self.point(&sheet, &corner);
            points::around(&corner, d).iter().for_each(|point| self.point(&sheet, point));
        }
        let inside = points::bytes(&points::anywhere(&mut self.random, d), d);
        self.every_room(&sheet, &inside);
        self.every_length(&sheet, &inside);
        (0..16).for_each(|kind| self.damaged(&sheet, kind));
    }

    /// Points of every kind in a sheet, about leaves from a number on.
    fn every_kind(&mut self, sheet: &Sheet, leaves: &[Leaf], from: usize, count: usize) {
        for kind in 0..count {
            let leaf = &leaves[from + self.random.below(leaves.len() - from)];
            let cell = Cell::at(&leaf.cell.root, &leaf.cell.path);
            let point = points::of_kind(&mut self.random, kind, &cell);
            self.point(sheet, &point);
        }
    }

    /// Leaves whose records begin past 65,535, and records whose numbers are past it.
    fn far(&mut self) {
        for d in DIMENSIONS {
            let leaves = sheet_of_at_least(&mut self.random, d, 2 * FAR, 0);
            let sheet = self.read(bytes(&leaves), d);
            self.every_kind(&sheet, &leaves, leaves.len() / 2, POINTS);
        }
        let leaves = sheet_of_depths(&mut self.random, 2, &[15, 16]);
        assert!(leaves.len() > FAR);
        let sheet = self.read(bytes(&leaves), 2);
        self.every_kind(&sheet, &leaves, FAR, POINTS / 2);
        let cut = self.read(sheet.bytes[..sheet.bytes.len() - 1].to_vec(), 2);
        self.lending(&cut, &[0; 4], 0);
    }

    /// Inputs that every run has.
    fn fixed(&mut self) {
        self.lending(&self.read(Vec::new(), 2), &[0; 4], PAST);
        for (d, depth) in every_depth() {
            let leaves = good_sheet(&mut self.random, d, depth);
            self.every_leaf(d, leaves);
        }
        for (d, above) in DIMENSIONS.iter().flat_map(|d| (0..=2 * d).map(move |n| (*d, n))) {
            let leaves = deepest_sheet(&mut self.random, d, above);
            self.every_leaf(d, leaves);
        }
        self.tally.part("every leaf's vertices and middles, every refusal");
        self.far();
        self.tally.part("leaves past 65,535 bytes and records");
    }

    /// As many more points as were asked for, in random sheets of every dimension, depth and several sizes.
    fn random(&mut self, count: usize) {
        let depths = every_depth();
        for n in 0..count.div_ceil(POINTS) {
            let (d, depth) = depths[n % depths.len()];
            let mut leaves = match n % 4 {
                0 => sheet_of_at_least(&mut self.random, d, 64 * depth, 0),
                1 => deepest_sheet(&mut self.random, d, depth % (2 * d + 1)),
                _ => good_sheet(&mut self.random, d, depth),
            };
            self.flattened(&mut leaves);
            let sheet = self.read(bytes(&leaves), d);
            self.every_kind(&sheet, &leaves, 0, POINTS.min(count - n * POINTS));
            self.damaged(&sheet, n);
        }
        self.tally.part("random");
    }
}

fn cells(leaves: &[Leaf]) -> Vec<Cell> {
    leaves.iter().map(|leaf| Cell::at(&leaf.cell.root, &leaf.cell.path)).collect()
}

fn main() {
    let options = Options::read(120_000);
    let finder = Finder::new();
    worked::check(&finder);
    let (sheets, random) = (Sheets::new(&finder), Random::new(options.seed));
    let tally = Tally::new("queries", &["leaf_at", "value_at", "slope_at"]);
    let mut comparison = Comparison { sheets, random, tally, slopes: [0; SLOPES.len()] };
    comparison.fixed();
    comparison.random(options.count);
    comparison.hold_slopes();
    comparison.tally.close();
}
