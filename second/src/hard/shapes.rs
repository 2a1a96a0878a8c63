//! How a fuzzer's bytes are read: as an input as they stand, or as choices that a good one is made by, so that
//! both bad inputs and good ones are near. The first byte says which.

use crate::calls::Entry;
use crate::edges::{OUTPUT, POINT};
use second::bisection::roots;
use second::codes::Code;
use second::sheets::{samples_length, MARK};
use second::sizes::*;

/// Bits of the first byte: a good input is made; a good point is made.
pub const MADE: u8 = 1;
pub const GOOD_POINT: u8 = 2;

/// Bytes of choices that are read at most: as many splits as they have bits.
const CHOICES: usize = 24;

/// Bytes before the sheet where a point comes with it: its length and its coordinates.
const POINT_FIELD: usize = 1 + POINT;

/// An input and how much is lent.
pub struct Shape {
    pub one: Vec<u8>,
    pub two: Vec<u8>,
    pub which: u8,
    pub lent: usize,
}

/// Choices, one bit after the other; 0 where there are no more.
struct Bits<'a> {
    bytes: &'a [u8],
    at: usize,
}

impl Bits<'_> {
    fn next(&mut self) -> bool {
        let byte = self.bytes.get(self.at / 8).copied().unwrap_or(0);
        self.at += 1;
        byte >> ((self.at - 1) % 8) & 1 == 1
    }
}

fn grow(bits: &mut Bits, code: Code, sheet: &mut Vec<u8>) {
    let d = code.entries.len();
    if code.depth < greatest_depth(d) && bits.next() {
        for which in 0..2 {
            let mut child = code.clone();
            child.step(which);
            grow(bits, child, sheet);
        }
        return;
    }
    let from = sheet.len();
    sheet.extend(MARK);
    sheet.extend(code.bytes());
    sheet.extend((0..samples_length(d)).map(|n| ((from + n) * 151 >> 3) as u8));
}

/// A good sheet: its dimension by the first byte, then one bit for each cell, whether it is split.
fn made_sheet(choices: &[u8]) -> Vec<u8> {
    let (first, rest) = choices.split_first().unwrap_or((&0, &[]));
    let d = DIMENSIONS[*first as usize % DIMENSIONS.len()];
    let mut bits = Bits { bytes: &rest[..rest.len().min(CHOICES)], at: 0 };
    let mut sheet = Vec::new();
    roots(d).iter().for_each(|root| grow(&mut bits, Code::root(root), &mut sheet));
    // What is left after the choices stands behind the sheet.
    sheet.extend(&rest[rest.len().min(CHOICES)..]);
    sheet
}

/// A good code: dimension, root, depth, then one bit for each step.
fn made_code(choices: &[u8]) -> Vec<u8> {
    let at = |i: usize| choices.get(i).copied().unwrap_or(0) as usize;
    let d = DIMENSIONS[at(0) % DIMENSIONS.len()];
    let (all, depth) = (roots(d), at(2) % (greatest_depth(d) + 1));
    let mut bits = Bits { bytes: choices.get(3..).unwrap_or(&[]), at: 0 };
    let path: Vec<u8> = (0..depth).map(|_| bits.next() as u8).collect();
    Code::at(&all[at(1) % all.len()], &path).bytes()
}

fn sheet_of(form: u8, bytes: &[u8]) -> Vec<u8> {
    if form & MADE == 0 {
        bytes.to_vec()
    } else {
        made_sheet(bytes)
    }
}

/// Coordinates as they stand; or as many as the sheet's dimension asks for, each in the cube.
fn point_of(form: u8, field: &[u8], sheet: &[u8]) -> Vec<u8> {
    let length = field[0] as usize % (POINT + 1);
    let coordinates = &field[1..];
    if form & GOOD_POINT == 0 {
        return coordinates[..length].to_vec();
    }
    let d = sheet.get(MARK.len()).map_or(2, |d| *d as usize).clamp(2, MOST_AXES);
    let two = |a: usize| coordinates[2 * a] as u32 + 256 * coordinates[2 * a + 1] as u32;
    let inside = |a| two(a) % (CUBE_SIDE + 1);
    (0..d).flat_map(|a| [(inside(a) % 256) as u8, (inside(a) / 256) as u8]).collect()
}

/// None where there are too few bytes to say it.
pub fn shape(entry: Entry, data: &[u8]) -> Option<Shape> {
    let (form, rest) = data.split_first()?;
    match entry {
        Entry::Cross => {
            let ([which, lent], code) = (rest.get(..2)?, &rest[2..]) else { return None };
            let one = if form & MADE == 0 { code.to_vec() } else { made_code(code) };
            let lent = *lent as usize % (OUTPUT + 1);
            Some(Shape { one, two: Vec::new(), which: *which, lent })
        }
        Entry::ValueAt => {
            let (field, sheet) = (rest.get(..POINT_FIELD)?, &rest[POINT_FIELD..]);
            let one = sheet_of(*form, sheet);
            let two = point_of(*form, field, &one);
            Some(Shape { one, two, which: 0, lent: (form >> 2) as usize })
        }
        _ => {
            let one = sheet_of(*form, rest);
            Some(Shape { one, two: Vec::new(), which: 0, lent: 0 })
        }
    }
}

/// The bytes that are read as an input as it stands.
pub fn seed(entry: Entry, one: &[u8], point: &[u8], which: u8) -> Vec<u8> {
    match entry {
        Entry::Cross => [&[0, which, OUTPUT as u8][..], one].concat(),
        Entry::ValueAt => {
            let mut field = [0; POINT_FIELD];
            field[0] = point.len() as u8;
            field[1..=point.len()].copy_from_slice(point);
            [&[16 << 2][..], &field, one].concat()
        }
        _ => [&[0][..], one].concat(),
    }
}

/// The bytes that are read as choices.
pub fn made_seed(entry: Entry, choices: &[u8]) -> Vec<u8> {
    match entry {
        Entry::Cross => [&[MADE, choices[0] % 5, OUTPUT as u8][..], choices].concat(),
        Entry::ValueAt => {
            let form = MADE | GOOD_POINT | 16 << 2;
            [&[form][..], &choices[..POINT_FIELD], choices].concat()
        }
        _ => [&[MADE][..], choices].concat(),
    }
}
