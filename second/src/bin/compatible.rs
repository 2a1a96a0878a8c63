//! Compares the library's compatibility test with the second program, on many sheets that document 01's own
//! rule and that of request No. 4 judge differently.

use second::answers::CompatibleAnswer;
use second::compatible::{by_old_rule, compatible};
use second::finder::{Finder, Found};
use second::forests::{self, damaged, deepest_sheet, good_sheet, random_cell, sheet_of_at_least};
use second::inputs::Options;
use second::lent::Tally;
use second::mending::{may_split, Forest};
use second::random::Random;
use second::sheets::Sheets;
use second::sizes::*;
use second::worked;

extern "C" {
    fn rmk_compatible(sheet: *const u8, n: usize) -> CompatibleAnswer;
}

fn library(sheet: &[u8]) -> CompatibleAnswer {
    unsafe { rmk_compatible(sheet.as_ptr(), sheet.len()) }
}

/// What document 01's own rule says, and the answer. The new rule asks for more: none is a yes by it alone.
const YES: &str = "yes by both rules";
const OLD_YES: &str = "yes by the old rule and no by the new";
const NO: &str = "no by both";
const REFUSED: &str = "refused";

/// The answer alone, of sheets of more leaves than these: the old rule takes long.
const LEAVES: usize = 300;
const LARGE_YES: &str = "yes of many leaves";
const LARGE_NO: &str = "no of many leaves";

/// Of so many sheets that are asked for, one at least is a yes by both rules, one a yes by the old rule and a
/// no by the new, and one a no by both.
const PART: usize = 10;

/// Records of sheets about as large as the library's index has entries, and larger.
const INDEX: usize = 10240;
const RECORDS: [usize; 6] = [INDEX - 1, INDEX, INDEX + 1, 15_000, 2 * INDEX + 1, 30_000];

/// Leaves at which a random forest has grown enough, at most: so many for each dimension from 2 on. A box
/// has more cells in higher ones.
const GROWN: usize = 70;

struct Comparison<'a> {
    sheets: Sheets<'a>,
    random: Random,
    tally: Tally,
}

impl Comparison<'_> {
    /// Gives the second program's answer.
    fn sheet(&mut self, sheet: &[u8]) -> CompatibleAnswer {
        let expected = compatible(&self.sheets, sheet);
        let answer = self.by_both_rules(sheet, expected);
        let second = |_: &mut [_; 0]| expected;
        let library = |_: &mut [_; 0]| library(sheet);
        self.tally.compare(answer, &[sheet], [], second, library);
        expected
    }

    /// What the two rules say of a sheet, with the answer by the new one.
    fn by_both_rules(&self, sheet: &[u8], answer: CompatibleAnswer) -> &'static str {
        let Ok(leaves) = self.sheets.cells(sheet) else {
            return REFUSED;
        };
        let yes = answer.compatible == 1;
        if leaves.len() > LEAVES {
            return if yes { LARGE_YES } else { LARGE_NO };
        }
        match (by_old_rule(&leaves), yes) {
            (true, true) => YES,
            (true, false) => OLD_YES,
            (false, false) => NO,
            (false, true) => panic!("a yes by the new rule alone: {leaves:?}"),
        }
    }

    /// The sheet of a forest, now and then also damaged. Is it compatible?
    fn forest(&mut self, forest: &Forest) -> bool {
        let sheet = forest.sheet(&mut self.random);
        if self.random.once_in(8) {
            let kind = self.random.below(4);
            let damaged = damaged(&mut self.random, &sheet, kind);
            self.sheet(&damaged);
        }
        self.sheet(&sheet).compatible == 1
    }

    /// One leaf of a compatible forest split. Where it is not compatible then: mended but for one leaf, which
    /// is too large beside few others, often at one facet alone; and mended.
    fn split(&mut self, forest: &mut Forest, leaf: &Found) {
        let halves = forest.split(leaf);
        if self.forest(forest) {
            return;
        }
        let large = forest.large_leaves(&halves);
        let (mut nearly, kept) = (forest.clone(), &large[self.random.below(large.len())]);
        nearly.mend(&halves, Some(kept));
        assert!(!self.forest(&nearly), "a forest with a leaf too large is compatible");
        forest.mend(&halves, None);
        assert!(self.forest(forest), "a mended forest is not compatible");
    }

    /// A forest whose leaf over one cell is split until that cell is a leaf, or it has leaves enough.
    fn toward(&mut self, forest: &mut Forest, target: &Found, enough: usize) {
        while let Some(leaf) = forest.over(target).filter(|leaf| leaf != target) {
            self.split(forest, &leaf);
            if forest.len() > enough {
                return;
            }
        }
    }

    /// A forest whose leaves are split anywhere until it has enough.
    fn anywhere(&mut self, forest: &mut Forest, enough: usize) {
        while forest.len() < enough {
            let leaf = forest.any(&mut self.random);
            if may_split(&leaf) {
                self.split(forest, &leaf);
            }
        }
    }

    /// All forests whose leaves inside the cells given are the cells themselves or so much deeper at most.
    fn every_forest(&mut self, forest: &Forest, cells: &[(Found, usize)]) {
        let Some(((cell, depth), others)) = cells.split_last() else {
            self.forest(forest);
            return;
        };
        self.every_forest(forest, others);
        if *depth > 0 {
            let mut split = forest.clone();
            let halves = split.split(cell).map(|half| (half, depth - 1));
            self.every_forest(&split, &[others, &halves].concat());
        }
    }

    /// All forests of a dimension whose leaves are so deep at most.
    fn every_forest_to(&mut self, d: usize, depth: usize) {
        let forest = Forest::uniform(d, 0);
        let cells: Vec<(Found, usize)> =
            forest.leaves().map(|cell| (cell.clone(), depth)).collect();
        self.every_forest(&forest, &cells);
    }

    /// All cells of a depth; one of them split, and a half of it again.
    fn uniform(&mut self, d: usize, depth: usize) {
        let mut forest = Forest::uniform(d, depth);
        assert!(self.forest(&forest), "all cells of a depth are not compatible");
        let leaf = forest.any(&mut self.random);
        let halves = forest.split(&leaf);
        self.forest(&forest);
        forest.split(&halves[self.random.below(2)]);
        self.forest(&forest);
    }

    /// A leaf of greatest depth, and leaves of every depth around it: the last steps to there. In dimension 4
    /// it stands in a corner of the cube, since around others there are many times more.
    fn deepest(&mut self, d: usize) {
        let mut target = random_cell(&mut self.random, d, greatest_depth(d));
        if d == MOST_AXES {
            target.path[..greatest_depth(d) - d].fill(0);
        }
        let mut forest = Forest::uniform(d, 0);
        forest.mended_to(&target, greatest_depth(d) - 2);
        self.toward(&mut forest, &target, usize::MAX);
    }

    /// About so many records: a compatible sheet, the same cut, and with single leaves split until they are
    /// just so many, or one leaf where they were.
    fn large(&mut self, d: usize, records: usize) {
        let mut forest = Forest::of_rings(&mut self.random, d, records);
        let sheet = forest.sheet(&mut self.random);
        assert_eq!(self.sheet(&sheet).compatible, 1, "whole rings are split and no single leaf");
        self.sheet(&sheet[..sheet.len() - 1]);
        let single = 1.max(records - forest.len());
        for _ in 0..single {
            let leaf = forest.any(&mut self.random);
            forest.split(&leaf);
        }
        self.forest(&forest);
    }

    /// Random forests of every dimension and depth, hardly any of them compatible.
    fn scattered(&mut self, d: usize, depth: usize) {
        let leaves = match self.random.below(4) {
            0 => sheet_of_at_least(&mut self.random, d, 64 * depth, 0),
            1 => deepest_sheet(&mut self.random, d, depth % (2 * d + 1)),
            _ => good_sheet(&mut self.random, d, depth),
        };
        self.sheet(&forests::bytes(&leaves));
    }

    /// Inputs that every run has.
    fn fixed(&mut self) {
        self.sheet(&[]);
        self.every_forest_to(2, 3);
        self.every_forest_to(3, 1);
        self.tally.part("every shallow forest");
        for (d, depth) in every_depth() {
            self.scattered(d, depth);
        }
        for d in DIMENSIONS {
            (0..=2 * d + 1).for_each(|depth| self.uniform(d, depth));
            (0..2).for_each(|_| self.deepest(d));
        }
        self.tally.part("every depth");
        for (d, records) in DIMENSIONS.iter().flat_map(|d| RECORDS.map(|records| (*d, records))) {
            self.large(d, records);
        }
        self.tally.part("about 10,240 records and more");
    }

    /// Leaves of two depths, which stand anywhere: hardly ever compatible, but by the old rule.
    fn two_depths(&mut self, d: usize, grown: usize) {
        let leaves = Forest::uniform(d, 0).len() + grown;
        let forest = Forest::of_two_depths(&mut self.random, d, leaves);
        self.forest(&forest);
    }

    /// Sheets that were not refused.
    fn judged(&self) -> usize {
        self.tally.inputs() - self.tally.had(REFUSED)
    }

    /// As many more sheets as were asked for, or a few above: forests that grow in one way or another.
    fn random(&mut self, count: usize) {
        let (depths, enough) = (every_depth(), self.judged() + count);
        for n in 0.. {
            if self.judged() >= enough {
                break;
            }
            let (d, depth) = depths[n % depths.len()];
            let grown = 1 + self.random.below(GROWN * (d - 1));
            let mut forest = Forest::uniform(d, self.random.below(d + 1));
            if n % 3 > 0 {
                let target = random_cell(&mut self.random, d, depth);
                self.toward(&mut forest, &target, grown);
            }
            if n % 3 < 2 {
                self.anywhere(&mut forest, grown);
            }
            self.two_depths(d, grown);
            self.scattered(d, depth);
        }
        self.tally.part("random");
    }
}

fn main() {
    let options = Options::read(20_000);
    let finder = Finder::new();
    worked::check(&finder);
    let sheets = Sheets::new(&finder);
    let random = Random::new(options.seed);
    let tally = Tally::new("compatible", &[YES, OLD_YES, NO, LARGE_YES, LARGE_NO, REFUSED]);
    let mut comparison = Comparison { sheets, random, tally };
    comparison.fixed();
    comparison.random(options.count);
    for answer in [YES, OLD_YES, NO] {
        comparison.tally.hold_least(answer, options.count / PART);
    }
    comparison.tally.close();
}
