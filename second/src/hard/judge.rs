//! The second program behind the same form of call, and what the contracts say of any answer.

use crate::calls::{Answer, Entry, Given};
use second::answers::{CompatibleAnswer, SheetAnswer};
use second::compatible::compatible;
use second::entries::{self, Reading};
use second::finder::Finder;
use second::queries::{self, Asked};
use second::sheets::{Sheets, MARK};
use second::{crossing, sizes::*};

/// What was read last is kept: an input is mostly asked for many times, with other outputs or points.
struct Kept<T>(Vec<u8>, Option<T>);

impl<T> Kept<T> {
    fn new() -> Kept<T> {
        Kept(Vec::new(), None)
    }

    fn of(&mut self, bytes: &[u8], read: impl FnOnce() -> T) -> &T {
        if self.0 != bytes || self.1.is_none() {
            *self = Kept(bytes.to_vec(), Some(read()));
        }
        self.1.as_ref().unwrap()
    }
}

/// Sheets read after which the codes that are known by then are forgotten, since they fill the memory.
const FORGET: usize = 20_000;

pub struct Judge {
    finder: &'static Finder,
    sheets: Sheets<'static>,
    read: usize,
    code: Kept<Reading>,
    checked: Kept<SheetAnswer>,
    asked: Kept<Asked>,
    compatible: Kept<CompatibleAnswer>,
}

impl Judge {
    pub fn new() -> Judge {
        let finder: &'static Finder = Box::leak(Box::new(Finder::new()));
        second::worked::check(finder);
        Judge {
            finder,
            sheets: Sheets::new(finder),
            read: 0,
            code: Kept::new(),
            checked: Kept::new(),
            asked: Kept::new(),
            compatible: Kept::new(),
        }
    }

    pub fn answer(&mut self, given: &Given, out: &mut [u8], other: &mut [u8]) -> Answer {
        if given.entry.reads_a_sheet() {
            return self.of_sheet(given, out);
        }
        if given.entry == Entry::PathToCode {
            return entries::path_to_code(given.one, given.two, out).into();
        }
        let finder = self.finder;
        let code = self.code.of(given.one, || finder.read(given.one));
        match given.entry {
            Entry::CodeCheck => entries::code_check(code).into(),
            Entry::CodeToPath => entries::code_to_path(code, out, other).into(),
            Entry::Vertices => entries::vertices(code, out).into(),
            Entry::Child => entries::child(code, given.which, out).into(),
            Entry::Parent => entries::parent(code, out).into(),
            _ => crossing::cross(code, given.which, out).into(),
        }
    }

    fn of_sheet(&mut self, given: &Given, out: &mut [u8]) -> Answer {
        self.read += 1;
        if self.read % FORGET == 0 {
            self.sheets = Sheets::new(self.finder);
        }
        let (sheets, sheet) = (&self.sheets, given.one);
        match given.entry {
            Entry::SheetCheck => (*self.checked.of(sheet, || sheets.check(sheet))).into(),
            Entry::Compatible => (*self.compatible.of(sheet, || compatible(sheets, sheet))).into(),
            entry => {
                let found = self.asked.of(sheet, || Asked::new(sheets, sheet)).find(given.two);
                match entry {
                    Entry::LeafAt => queries::leaf_at(&found, out).into(),
                    Entry::SlopeAt => queries::slope_at(&found).into(),
                    _ => queries::value_at(&found).into(),
                }
            }
        }
    }
}

/// The refusals of the header's orders, one bit for each.
const fn bits(refusals: &[u8]) -> u16 {
    let (mut bits, mut i) = (0, 0);
    while i < refusals.len() {
        bits |= 1 << refusals[i];
        i += 1;
    }
    bits
}

const OF_CODE: u16 = bits(&[
    REFUSED_DIMENSION,
    REFUSED_DEPTH,
    REFUSED_LENGTH,
    REFUSED_PERMUTATION,
    REFUSED_ORTHANT,
    REFUSED_SIGN,
]);
const OF_SHEET: u16 = bits(&[
    REFUSED_DIMENSION,
    REFUSED_DEPTH,
    REFUSED_PERMUTATION,
    REFUSED_ORTHANT,
    REFUSED_SIGN,
    REFUSED_RECORD,
    REFUSED_LEAF,
]);
const OF_PATH: u16 =
    bits(&[REFUSED_DIMENSION, REFUSED_DEPTH, REFUSED_PERMUTATION, REFUSED_STEP, REFUSED_SHORT]);

fn refusals(entry: Entry) -> u16 {
    match entry {
        Entry::CodeCheck => OF_CODE,
        Entry::PathToCode => OF_PATH,
        Entry::CodeToPath | Entry::Vertices => OF_CODE | bits(&[REFUSED_SHORT]),
        Entry::Child => OF_CODE | bits(&[REFUSED_STEP, REFUSED_DEEPEST, REFUSED_SHORT]),
        Entry::Parent => OF_CODE | bits(&[REFUSED_ROOT, REFUSED_SHORT]),
        Entry::Cross => OF_CODE | bits(&[REFUSED_STEP, REFUSED_FACE, REFUSED_SHORT]),
        Entry::SheetCheck | Entry::Compatible => OF_SHEET,
        Entry::LeafAt => OF_SHEET | bits(&[REFUSED_POINT, REFUSED_SHORT]),
        Entry::ValueAt | Entry::SlopeAt => OF_SHEET | bits(&[REFUSED_POINT]),
    }
}

/// What the header says of every answer, whatever the input: a refusal is one of the entry's own, its other
/// numbers are zero, its offset lies in the sheet; no more is written than was lent; and a vertex lies in the
/// cube, a slope is whole over the cube's side, each with zeros on the axes that the dimension lacks.
#[inline]
pub fn keeps_contract(given: &Given, answer: &Answer, lent: [usize; 2]) -> bool {
    let refusal = answer.refusal;
    if refusal == DONE {
        let written = answer.written(given.entry);
        let fits = answer.offset == 0 && written[0] <= lent[0] && written[1] <= lent[1];
        return fits && keeps_axes(given, answer);
    }
    let in_sheet = given.entry.reads_a_sheet() && OF_SHEET >> refusal & 1 == 1;
    let offset = answer.offset == 0 || (in_sheet && answer.offset <= given.one.len());
    let zeros = answer.numbers == [0, 0] && answer.axes == [0; MOST_AXES];
    refusal < 16 && refusals(given.entry) >> refusal & 1 == 1 && zeros && offset
}

#[inline]
fn keeps_axes(given: &Given, answer: &Answer) -> bool {
    let (dimension, holds): (_, fn(u64) -> bool) = match given.entry {
        Entry::Cross => (given.one.first(), |x| x <= CUBE_SIDE as u64),
        Entry::SlopeAt => (given.one.get(MARK.len()), is_slope),
        _ => return true,
    };
    let d = dimension.map_or(0, |d| *d as usize);
    answer.axes.iter().enumerate().all(|(a, x)| if a < d { holds(*x) } else { *x == 0 })
}

/// What is whole over the side of a box is so over the cube's. The deepest boxes, of side 1, have no vertex half
/// a side away, so that no slope is steeper than the greatest sample. Zero is +0.0.
fn is_slope(bits: u64) -> bool {
    let slope = f64::from_bits(bits);
    let whole = (slope * CUBE_SIDE as f64).fract() == 0.0;
    whole && slope.abs() <= u16::MAX as f64 && bits != (-0.0f64).to_bits()
}
