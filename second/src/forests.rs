//! Good sheets: leaves of random forests, with their records.

use crate::bisection::roots;
use crate::codes::Code;
use crate::finder::Found;
use crate::inputs;
use crate::random::Random;
use crate::sheets::{samples_length, MARK};
use crate::sizes::*;

/// A cell with its record's bytes.
#[derive(Clone)]
pub struct Leaf {
    pub cell: Found,
    pub record: Vec<u8>,
}

/// A record of any samples, some of which look like marks.
pub fn leaf(random: &mut Random, root: &[u8], path: &[u8]) -> Leaf {
    let code = Code::at(root, path).bytes();
    let mut samples = random.bytes(samples_length(root.len()));
    if random.once_in(2) {
        samples[2..4].copy_from_slice(&MARK);
    }
    let cell = Found { root: root.to_vec(), path: path.to_vec() };
    Leaf { cell, record: [&MARK[..], &code, &samples].concat() }
}

/// Says of a cell that may be split whether it is.
type Rule<'a> = &'a dyn Fn(&mut Random, &Found) -> bool;

/// The leaves of a tree whose cells are split by a rule.
fn grow(random: &mut Random, cell: Found, rule: Rule, leaves: &mut Vec<Leaf>) {
    let may = cell.path.len() < greatest_depth(cell.root.len());
    if !(may && rule(random, &cell)) {
        return leaves.push(leaf(random, &cell.root, &cell.path));
    }
    for which in 0..2 {
        let path = [&cell.path[..], &[which]].concat();
        grow(random, Found { root: cell.root.clone(), path }, rule, leaves);
    }
}

fn grow_roots(random: &mut Random, d: usize, rule: Rule) -> Vec<Leaf> {
    let mut leaves = Vec::new();
    for root in roots(d) {
        grow(random, Found { root, path: Vec::new() }, rule, &mut leaves);
    }
    leaves
}

pub fn random_cell(random: &mut Random, d: usize, depth: usize) -> Found {
    let path = inputs::good_path(random, depth);
    Found { root: inputs::good_root(random, d), path }
}

fn is_inside(cell: &Found, other: &Found) -> bool {
    cell.root == other.root && cell.path.starts_with(&other.path)
}

/// The leaves of a good sheet that has one at the depth at least, and is split elsewhere now and then.
pub fn good_sheet(random: &mut Random, d: usize, depth: usize) -> Vec<Leaf> {
    let target = random_cell(random, d, depth);
    let toward = |cell: &Found| is_inside(&target, cell) && cell.path.len() < depth;
    grow_roots(random, d, &|random, cell| toward(cell) || random.once_in(6))
}

/// The leaves of a good sheet that has all cells of greatest depth inside one, so many steps above them.
pub fn deepest_sheet(random: &mut Random, d: usize, above: usize) -> Vec<Leaf> {
    let target = random_cell(random, d, greatest_depth(d) - above);
    grow_roots(random, d, &|_, cell| is_inside(&target, cell) || is_inside(cell, &target))
}

/// The leaves of a good sheet, split at random until it has so many bytes or more. The last `kept` roots
/// are not split.
pub fn sheet_of_at_least(random: &mut Random, d: usize, size: usize, kept: usize) -> Vec<Leaf> {
    let mut leaves: Vec<Leaf> = roots(d).iter().map(|root| leaf(random, root, &[])).collect();
    let mut length: usize = leaves.iter().map(|leaf| leaf.record.len()).sum();
    while length < size {
        let at = random.below(leaves.len() - kept);
        let Found { root, path } = leaves[at].cell.clone();
        if path.len() < greatest_depth(d) {
            let halves = [0, 1].map(|which| leaf(random, &root, &[&path[..], &[which]].concat()));
            length += halves[0].record.len() + halves[1].record.len() - leaves[at].record.len();
            leaves.splice(at..=at, halves);
        }
    }
    leaves
}

/// The same of just so many bytes: from the roots again where it gets past them.
pub fn sheet_of_size(random: &mut Random, d: usize, size: usize, kept: usize) -> Vec<Leaf> {
    loop {
        let leaves = sheet_of_at_least(random, d, size, kept);
        if bytes(&leaves).len() == size {
            return leaves;
        }
    }
}

/// The leaves of a good sheet that has under each root all cells of the depth given for it.
pub fn sheet_of_depths(random: &mut Random, d: usize, depths: &[usize]) -> Vec<Leaf> {
    let mut leaves = Vec::new();
    for (root, depth) in roots(d).iter().zip(depths) {
        for number in 0..1u32 << depth {
            let path: Vec<u8> = (0..*depth).rev().map(|t| (number >> t & 1) as u8).collect();
            leaves.push(leaf(random, root, &path));
        }
    }
    leaves
}

/// A sheet cut, lengthened or with a byte changed.
pub fn damaged(random: &mut Random, sheet: &[u8], kind: usize) -> Vec<u8> {
    let mut bytes = sheet.to_vec();
    let at = random.below(bytes.len());
    match kind % 4 {
        0 => bytes.truncate(at),
        1 => bytes[at] ^= 1 << random.below(8),
        2 => bytes[at] = random.byte(),
        _ => bytes.extend([&MARK[..], &inputs::noise(random, at % 30)].concat()),
    }
    bytes
}

pub fn bytes(leaves: &[Leaf]) -> Vec<u8> {
    leaves.iter().flat_map(|leaf| leaf.record.clone()).collect()
}
