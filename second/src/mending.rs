//! Compatible sheets that are not uniform: forests whose leaves are split, and then every leaf that became
//! too large beside a smaller one, until none is left.

use crate::bisection::{roots, Cell, Point};
use crate::crossing::{across, facet_of};
use crate::finder::Found;
use crate::forests::leaf;
use crate::random::Random;
use crate::sizes::*;
use std::collections::{BTreeMap, BTreeSet, HashMap};

/// The leaves of a forest; a set has them in tree order.
#[derive(Clone)]
pub struct Forest {
    leaves: BTreeSet<Found>,
}

/// A facet's vertices, and the same-depth cell across it.
struct Beside {
    facet: Vec<Point>,
    cell: Found,
}

impl Forest {
    /// All cells of a depth.
    pub fn uniform(d: usize, depth: usize) -> Forest {
        let whole = |root| Found { root, path: Vec::new() };
        let mut forest = Forest { leaves: roots(d).into_iter().map(whole).collect() };
        for _ in 0..depth {
            let halves = |cell: &Found| [cell.child(0), cell.child(1)];
            forest.leaves = forest.leaves.iter().flat_map(halves).collect();
        }
        forest
    }

    /// All cells of the greatest depth at which they are no more than so many.
    fn uniform_of(d: usize, leaves: usize) -> Forest {
        let fits = |depth: &usize| roots(d).len() << depth <= leaves;
        Forest::uniform(d, (0..).take_while(fits).last().expect("there are more roots"))
    }

    /// So many leaves: all cells of a depth, some of which are split once. Leaves side by side are at most
    /// one depth apart, which is all that document 01's own rule asks for.
    pub fn of_two_depths(random: &mut Random, d: usize, leaves: usize) -> Forest {
        let mut forest = Forest::uniform_of(d, leaves);
        let mut whole: Vec<Found> = forest.leaves.iter().cloned().collect();
        while forest.len() < leaves {
            forest.split(&whole.swap_remove(random.below(whole.len())));
        }
        forest
    }

    /// A compatible forest of so many leaves, or as few less as whole rings allow: all cells of a depth, of
    /// which whole rings are split, and then of what came of it.
    pub fn of_rings(random: &mut Random, d: usize, leaves: usize) -> Forest {
        let mut forest = Forest::uniform_of(d, leaves);
        loop {
            let (mut rings, before) = (forest.rings(), forest.len());
            while forest.len() < leaves && !rings.is_empty() {
                let ring = rings.swap_remove(random.below(rings.len()));
                if forest.len() + ring.len() <= leaves {
                    ring.iter().for_each(|leaf| drop(forest.split(leaf)));
                }
            }
            if forest.len() == before {
                return forest;
            }
        }
    }

    /// The whole rings: the leaves that are split at an edge, where they are all leaves that have both its
    /// ends. So no leaf that is not split keeps an edge whose middle became a vertex.
    fn rings(&self) -> Vec<Vec<Found>> {
        let (mut having, mut rings) = (HashMap::new(), BTreeMap::<_, Vec<Found>>::new());
        for leaf in &self.leaves {
            let cell = Cell::at(&leaf.root, &leaf.path);
            for (place, one) in cell.vertices.iter().enumerate() {
                for other in &cell.vertices[..place] {
                    *having.entry(edge(one, other)).or_insert(0) += 1;
                }
            }
            if may_split(leaf) {
                let halved = edge(&cell.vertices[0], &cell.vertices[cell.split_place()]);
                rings.entry(halved).or_default().push(leaf.clone());
            }
        }
        let whole = |(edge, ring): (_, Vec<Found>)| (having[&edge] == ring.len()).then_some(ring);
        rings.into_iter().filter_map(whole).collect()
    }

    pub fn leaves(&self) -> impl Iterator<Item = &Found> {
        self.leaves.iter()
    }

    pub fn len(&self) -> usize {
        self.leaves.len()
    }

    pub fn any(&self, random: &mut Random) -> Found {
        let number = random.below(self.len());
        self.leaves.iter().nth(number).expect("there are so many").clone()
    }

    /// The leaf that is the cell or has it inside, if there is one.
    pub fn over(&self, cell: &Found) -> Option<Found> {
        let before = self.leaves.range(..=cell).next_back()?;
        let has = before.root == cell.root && cell.path.starts_with(&before.path);
        has.then(|| before.clone())
    }

    pub fn split(&mut self, leaf: &Found) -> [Found; 2] {
        assert!(may_split(leaf) && self.leaves.remove(leaf), "no leaf to split: {leaf:?}");
        let halves = [leaf.child(0), leaf.child(1)];
        self.leaves.extend(halves.clone());
        halves
    }

    /// Splits the leaf over a cell until it is so deep, and mends.
    pub fn mended_to(&mut self, cell: &Found, depth: usize) {
        while let Some(leaf) = self.over(cell).filter(|leaf| leaf.path.len() < depth) {
            let halves = self.split(&leaf);
            self.mend(&halves, None);
        }
    }

    /// Splits every leaf that is too large beside a smaller one, but for the one kept. Only the leaves given,
    /// and those that come of it, can be the smaller ones.
    pub fn mend(&mut self, smaller: &[Found], kept: Option<&Found>) {
        let mut smaller = smaller.to_vec();
        while let Some(leaf) = smaller.pop() {
            if !self.leaves.contains(&leaf) {
                continue;
            }
            for near in besides(&leaf) {
                while let Some(large) = self.too_large(&near).filter(|large| Some(large) != kept) {
                    smaller.extend(self.split(&large));
                }
            }
        }
    }

    /// The leaves that are too large beside smaller ones.
    pub fn large_leaves(&self, smaller: &[Found]) -> Vec<Found> {
        smaller.iter().flat_map(besides).filter_map(|near| self.too_large(&near)).collect()
    }

    /// The leaf that is the cell across a facet or has it inside, if it lacks a vertex of the facet.
    fn too_large(&self, beside: &Beside) -> Option<Found> {
        let lacks = |leaf: &Found| {
            let vertices = vertices_of(leaf);
            beside.facet.iter().any(|point| !vertices.contains(point))
        };
        self.over(&beside.cell).filter(lacks)
    }

    /// A sheet of these leaves, with any samples.
    pub fn sheet(&self, random: &mut Random) -> Vec<u8> {
        self.leaves.iter().flat_map(|cell| leaf(random, &cell.root, &cell.path).record).collect()
    }
}

fn vertices_of(leaf: &Found) -> Vec<Point> {
    Cell::at(&leaf.root, &leaf.path).vertices
}

/// Two points, in one order.
fn edge(one: &Point, other: &Point) -> [Point; 2] {
    [*one.min(other), *one.max(other)]
}

/// What is beside a leaf across each facet that is not in a face of the cube.
fn besides(leaf: &Found) -> Vec<Beside> {
    let cell = Cell::at(&leaf.root, &leaf.path);
    let beside = |facet: usize| {
        let (across, _place) = across(leaf, facet as u8).ok()?;
        Some(Beside { facet: facet_of(&cell, facet), cell: across })
    };
    (0..cell.vertices.len()).filter_map(beside).collect()
}

pub fn may_split(leaf: &Found) -> bool {
    leaf.path.len() < greatest_depth(leaf.root.len())
}
