//! Good sheets of a few records, and the parts of their records.

use second::forests::{self, deepest_sheet, good_sheet};
use second::mending::Forest;
use second::random::Random;
use second::sheets::{samples_length, MARK};
use second::sizes::*;

/// Kinds of sheets: roots alone; mended around a cell; one of greatest depth; any.
pub const KINDS: usize = 4;

/// A good sheet, deep or shallow, compatible or not. Now and then all its samples are 0, or the greatest.
pub fn some_sheet(random: &mut Random, d: usize, kind: usize) -> Vec<u8> {
    let mut sheet = sheet_of_kind(random, d, kind);
    match random.below(6) {
        0 => flatten(&mut sheet, 0),
        1 => flatten(&mut sheet, 255),
        _ => (),
    }
    sheet
}

fn sheet_of_kind(random: &mut Random, d: usize, kind: usize) -> Vec<u8> {
    match kind {
        0 => Forest::uniform(d, 0).sheet(random),
        1 => {
            let mut forest = Forest::uniform(d, 0);
            let cell = forests::random_cell(random, d, d);
            forest.mended_to(&cell, d); // deeper ones of dimension 4 are longer than what is cut at every length
            forest.sheet(random)
        }
        2 => forests::bytes(&deepest_sheet(random, d, 0)),
        _ => {
            let depth = random.below(greatest_depth(d) + 1);
            forests::bytes(&good_sheet(random, d, depth))
        }
    }
}

fn flatten(sheet: &mut [u8], byte: u8) {
    let mut at = 0;
    while at < sheet.len() {
        let (samples, end) = parts(sheet, at);
        sheet[samples..end].fill(byte);
        at = end;
    }
}

/// The code and the samples of a good sheet's record.
pub fn record(sheet: &[u8], number: usize) -> (&[u8], &[u8]) {
    let at = (0..number).fold(0, |at, _| parts(sheet, at).1);
    let (samples, end) = parts(sheet, at);
    (&sheet[at + MARK.len()..samples], &sheet[samples..end])
}

/// Where the samples of the record at an offset begin and end.
fn parts(sheet: &[u8], at: usize) -> (usize, usize) {
    let code = at + MARK.len();
    let (d, depth) = (sheet[code] as usize, sheet[code + 1] as usize);
    let samples = code + code_length(d, depth);
    (samples, samples + samples_length(d))
}
