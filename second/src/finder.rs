//! The root and the path of a code, found by walking down from the roots with the step rule.
//!
//! All roots start; after each level only those walkers go on whose orthants are so far the code's. The
//! step rule reads nothing but the level and the signed permutation, so that what a permutation can
//! become in one level is walked once and kept.

use crate::bisection::roots;
use crate::codes::{entry_of, Code};
use crate::sizes::*;

/// Where a code's cell is: its root and the steps to it. The derived order is tree order.
#[derive(Clone, PartialEq, Eq, PartialOrd, Ord, Hash, Debug)]
pub struct Found {
    pub root: Vec<u8>,
    pub path: Vec<u8>,
}

impl Found {
    pub fn child(&self, which: u8) -> Found {
        Found { root: self.root.clone(), path: [&self.path[..], &[which]].concat() }
    }

    pub fn parent(&self) -> Option<Found> {
        let (_last, path) = self.path.split_last()?;
        Some(Found { root: self.root.clone(), path: path.to_vec() })
    }
}

/// The steps of one level, the orthant that they append and the permutation that they lead to.
struct Way {
    steps: u64,
    orthant: u8,
    to: usize,
}

/// All signed permutations that occur at level 0, the roots first, with the ways down from each.
struct Levels {
    roots: Vec<Vec<u8>>,
    met: Vec<Vec<i8>>,
    ways: Vec<Vec<Way>>,
}

/// A root, the steps taken from it (the last one lowest) and the permutation reached.
#[derive(Clone, Copy)]
struct Walker {
    root: usize,
    steps: u64,
    at: usize,
}

pub struct Finder {
    levels: Vec<Levels>,
}

/// The number's low bits as steps, the last step lowest.
fn steps_of(steps: u64, count: usize) -> Vec<u8> {
    (0..count).rev().map(|t| (steps >> t & 1) as u8).collect()
}

impl Levels {
    fn new(d: usize) -> Levels {
        let roots = roots(d);
        let met = roots.iter().map(|root| Code::root(root).entries).collect();
        let mut levels = Levels { roots, met, ways: Vec::new() };
        while levels.ways.len() < levels.met.len() {
            let from = levels.met[levels.ways.len()].clone();
            let ways = (0..1 << d).map(|steps| levels.way(&from, steps)).collect();
            levels.ways.push(ways);
        }
        levels
    }

    fn way(&mut self, from: &[i8], steps: u64) -> Way {
        let code = walk(from, steps, from.len());
        let known = self.met.iter().position(|entries| *entries == code.entries);
        let to = known.unwrap_or(self.met.len());
        if known.is_none() {
            self.met.push(code.entries);
        }
        Way { steps, orthant: code.orthants[0], to }
    }

    /// Every root and path that lead to the entries and orthants.
    fn find(&self, entries: &[i8], orthants: &[u8], depth: usize) -> Vec<Found> {
        let (d, level) = (entries.len(), depth % entries.len());
        let start = |root| Walker { root, steps: 0, at: root };
        let mut walkers: Vec<Walker> = (0..self.roots.len()).map(start).collect();
        for orthant in orthants {
            walkers = self.level_down(&walkers, *orthant, d);
        }
        let mut found = Vec::new();
        for walker in walkers {
            let leads = |steps: &u64| walk(&self.met[walker.at], *steps, level).entries == entries;
            for steps in (0..1 << level).filter(leads) {
                let path = steps_of(walker.steps << level | steps, depth);
                found.push(Found { root: self.roots[walker.root].clone(), path });
            }
        }
        found
    }

    fn level_down(&self, walkers: &[Walker], orthant: u8, d: usize) -> Vec<Walker> {
        let mut down = Vec::with_capacity(walkers.len());
        for walker in walkers {
            for way in self.ways[walker.at].iter().filter(|way| way.orthant == orthant) {
                down.push(Walker { steps: walker.steps << d | way.steps, at: way.to, ..*walker });
            }
        }
        down
    }
}

/// The steps, taken from a signed permutation at level 0.
fn walk(from: &[i8], steps: u64, count: usize) -> Code {
    let mut code = Code { depth: 0, entries: from.to_vec(), orthants: Vec::new() };
    steps_of(steps, count).iter().for_each(|which| code.step(*which));
    code
}

impl Finder {
    pub fn new() -> Finder {
        Finder { levels: DIMENSIONS.map(Levels::new).into() }
    }

    /// The one root and path of a code, or the refusal of the byte string.
    pub fn read(&self, bytes: &[u8]) -> Result<Found, u8> {
        let (entries, orthants) = parts(bytes)?;
        let depth = bytes[1] as usize;
        let mut found = self.levels[entries.len() - 2].find(&entries, &orthants, depth);
        assert!(found.len() < 2, "two cells have the code {bytes:x?}");
        let allowed = signs_allowed(&entries, &orthants, depth);
        assert!(allowed != found.is_empty(), "the sign rule and the search differ on {bytes:x?}");
        found.pop().ok_or(REFUSED_SIGN)
    }
}

/// The signed permutation and the orthants of a byte string, or its refusal before the signs are judged.
fn parts(bytes: &[u8]) -> Result<(Vec<i8>, Vec<u8>), u8> {
    if bytes.len() < 2 {
        return Err(REFUSED_LENGTH);
    }
    let (d, depth) = (bytes[0] as usize, bytes[1] as usize);
    if !is_dimension(d) {
        return Err(REFUSED_DIMENSION);
    }
    if depth > greatest_depth(d) {
        return Err(REFUSED_DEPTH);
    }
    if bytes.len() != code_length(d, depth) {
        return Err(REFUSED_LENGTH);
    }
    let entries: Vec<i8> = bytes[2..2 + d].iter().filter_map(|byte| entry_of(*byte, d)).collect();
    let has = |axis: u8| entries.iter().any(|entry| entry.unsigned_abs() == axis);
    if !(1..=d as u8).all(has) {
        return Err(REFUSED_PERMUTATION);
    }
    let orthants = bytes[2 + d..].to_vec();
    if orthants.iter().any(|orthant| *orthant >= 1 << d) {
        return Err(REFUSED_ORTHANT);
    }
    Ok((entries, orthants))
}

/// The document's sentence on signs. The search decides; this must agree with it.
fn signs_allowed(entries: &[i8], orthants: &[u8], depth: usize) -> bool {
    let d = entries.len();
    let high = |axis: u8| orthants.last().is_some_and(|last| last >> (axis - 1) & 1 == 1);
    entries[..d - depth % d].iter().all(|entry| (*entry < 0) == high(entry.unsigned_abs()))
}
