//! Document 01, "Sheets": records, and the trees that they are the leaves of, built by recursion.

use crate::answers::SheetAnswer;
use crate::bisection::{roots, Cell};
use crate::codes::Code;
use crate::entries::Reading;
use crate::finder::{Finder, Found};
use crate::sizes::*;
use std::cell::RefCell;
use std::collections::HashMap;

pub const MARK: [u8; 2] = [0x43, 0x4c];

/// Bytes of the samples of one record.
pub fn samples_length(d: usize) -> usize {
    2 * (d + 1)
}

/// A refusal and the offset of the record at which it was found.
pub type Refused = (u8, usize);

/// A whole record that passed its own tests: its cell, where its samples start and the bytes after it.
struct Record {
    cell: Found,
    samples: usize,
    end: usize,
}

/// A cell that is a leaf, with the offset of its samples, or one whose children are trees.
enum Tree {
    Leaf(usize),
    Split(Box<Tree>, Box<Tree>),
}

/// A leaf's cell, by bisection from its root, and the samples at its vertices.
pub struct Sampled {
    pub cell: Cell,
    pub samples: Vec<u16>,
}

impl Tree {
    fn codes(&self, here: &Code, codes: &mut Vec<Vec<u8>>) {
        match self {
            Tree::Leaf(_) => codes.push(here.bytes()),
            Tree::Split(zero, one) => {
                for (which, tree) in [zero, one].into_iter().enumerate() {
                    let mut child = here.clone();
                    child.step(which as u8);
                    tree.codes(&child, codes);
                }
            }
        }
    }

    fn leaves(&self) -> usize {
        match self {
            Tree::Leaf(_) => 1,
            Tree::Split(zero, one) => zero.leaves() + one.leaves(),
        }
    }

    fn cells(&self, here: Found, cells: &mut Vec<Found>) {
        match self {
            Tree::Leaf(_) => cells.push(here),
            Tree::Split(zero, one) => {
                zero.cells(here.child(0), cells);
                one.cells(here.child(1), cells);
            }
        }
    }

    fn sampled(&self, cell: Cell, sheet: &[u8], leaves: &mut Vec<Sampled>) {
        match self {
            Tree::Leaf(at) => {
                let bytes = &sheet[*at..at + samples_length(cell.dimension())];
                let samples = bytes.chunks(2).map(|two| two[0] as u16 + 256 * two[1] as u16);
                leaves.push(Sampled { cell, samples: samples.collect() });
            }
            Tree::Split(zero, one) => {
                zero.sampled(cell.child(0), sheet, leaves);
                one.sampled(cell.child(1), sheet, leaves);
            }
        }
    }
}

/// Reads sheets. What the finder said of a code is kept, since sheets repeat their codes.
pub struct Sheets<'a> {
    finder: &'a Finder,
    known: RefCell<HashMap<Vec<u8>, Reading>>,
}

impl<'a> Sheets<'a> {
    pub fn new(finder: &'a Finder) -> Sheets<'a> {
        Sheets { finder, known: RefCell::new(HashMap::new()) }
    }

    /// The codes of a good sheet's leaves, each made from its place in the tree, not read from the sheet.
    pub fn codes(&self, sheet: &[u8]) -> Result<Vec<Vec<u8>>, Refused> {
        let trees = self.forest(sheet)?;
        let d = sheet[MARK.len()] as usize;
        let mut codes = Vec::new();
        for (root, tree) in roots(d).iter().zip(&trees) {
            tree.codes(&Code::root(root), &mut codes);
        }
        Ok(codes)
    }

    /// The cells of a good sheet's leaves in tree order, each as its root and its path.
    pub fn cells(&self, sheet: &[u8]) -> Result<Vec<Found>, Refused> {
        let trees = self.forest(sheet)?;
        let d = sheet[MARK.len()] as usize;
        let mut cells = Vec::new();
        for (root, tree) in roots(d).into_iter().zip(&trees) {
            tree.cells(Found { root, path: Vec::new() }, &mut cells);
        }
        Ok(cells)
    }

    /// The leaves of a good sheet in tree order, with their samples.
    pub fn leaves(&self, sheet: &[u8]) -> Result<Vec<Sampled>, Refused> {
        let trees = self.forest(sheet)?;
        let d = sheet[MARK.len()] as usize;
        let mut leaves = Vec::new();
        for (root, tree) in roots(d).iter().zip(&trees) {
            tree.sampled(Cell::root(root), sheet, &mut leaves);
        }
        Ok(leaves)
    }

    pub fn check(&self, sheet: &[u8]) -> SheetAnswer {
        match self.forest(sheet) {
            Ok(trees) => {
                let records = trees.iter().map(Tree::leaves).sum();
                SheetAnswer { refusal: DONE, offset: 0, records }
            }
            Err((refusal, offset)) => SheetAnswer { refusal, offset, records: 0 },
        }
    }

    /// The trees of all roots, in order. Bytes after them are read as one more record, and none is next.
    fn forest(&self, sheet: &[u8]) -> Result<Vec<Tree>, Refused> {
        let mut at = 0;
        let d = self.next(sheet, at)?.cell.root.len();
        let mut trees = Vec::new();
        for root in roots(d) {
            trees.push(self.tree(sheet, &mut at, &Found { root, path: Vec::new() })?);
        }
        if at < sheet.len() {
            self.next(sheet, at)?;
            return Err((REFUSED_LEAF, at));
        }
        Ok(trees)
    }

    /// The tree of a cell: the next record is the cell itself, or lies inside it.
    fn tree(&self, sheet: &[u8], at: &mut usize, cell: &Found) -> Result<Tree, Refused> {
        let record = self.next(sheet, *at)?;
        if record.cell == *cell {
            *at = record.end;
            return Ok(Tree::Leaf(record.samples));
        }
        if record.cell.root != cell.root || !record.cell.path.starts_with(&cell.path) {
            return Err((REFUSED_LEAF, *at));
        }
        let mut half = |which| {
            let path = [&cell.path[..], &[which]].concat();
            self.tree(sheet, at, &Found { root: cell.root.clone(), path }).map(Box::new)
        };
        Ok(Tree::Split(half(0)?, half(1)?))
    }

    /// The record at an offset where one is wanted; the sheet's end there is an early end.
    fn next(&self, sheet: &[u8], at: usize) -> Result<Record, Refused> {
        if at == sheet.len() {
            return Err((REFUSED_LEAF, at));
        }
        self.record(sheet, at).map_err(|refusal| (refusal, at))
    }

    /// A record's own tests, in the document's order.
    fn record(&self, sheet: &[u8], at: usize) -> Result<Record, u8> {
        let part =
            |from: usize, length: usize| sheet.get(from..from + length).ok_or(REFUSED_RECORD);
        if part(at, 2)? != MARK {
            return Err(REFUSED_RECORD);
        }
        let head = part(at + 2, 2)?;
        let (d, depth) = (head[0] as usize, head[1] as usize);
        if !is_dimension(d) {
            return Err(REFUSED_DIMENSION);
        }
        if depth > greatest_depth(d) {
            return Err(REFUSED_DEPTH);
        }
        let code = part(at + 2, code_length(d, depth))?;
        let cell = self.read(code)?;
        let samples = at + 2 + code.len();
        part(samples, samples_length(d))?;
        Ok(Record { cell, samples, end: samples + samples_length(d) })
    }

    fn read(&self, code: &[u8]) -> Reading {
        if let Some(reading) = self.known.borrow().get(code) {
            return reading.clone();
        }
        let reading = self.finder.read(code);
        self.known.borrow_mut().insert(code.to_vec(), reading.clone());
        reading
    }
}
