//! Document 01, "Sheets", as request No. 4 amends it: compatible sheets, and what the compatibility test
//! answers.
//!
//! Judged by vertices alone, as points in whatever order: no facet is crossed, and no cell is sought that
//! is no leaf. A leaf has all vertices of a facet exactly where one of its own facets has the same ones: so
//! the leaves are counted by the vertices of their facets. A sheet of few leaves is also judged by all
//! pairs of leaves, in the request's own words, which takes longer.

use crate::answers::CompatibleAnswer;
use crate::bisection::{Cell, Point};
use crate::crossing::{across, facet_of, in_face_of_cube};
use crate::finder::Found;
use crate::sheets::Sheets;
use crate::sizes::*;
use std::collections::{HashMap, HashSet};

/// Leaves of sheets that are judged by pairs too, where there are so many at most.
const FEW: usize = 50;

pub fn compatible(sheets: &Sheets, sheet: &[u8]) -> CompatibleAnswer {
    let leaves = match sheets.cells(sheet) {
        Err((refusal, offset)) => return CompatibleAnswer::refused(refusal, offset),
        Ok(leaves) => leaves,
    };
    let cells: Vec<Cell> = leaves.iter().map(bisected).collect();
    let yes = by_facets(&cells);
    let agreed = cells.len() > FEW || by_pairs(&cells) == yes;
    assert!(agreed, "the facets and the pairs differ on {leaves:?}");
    CompatibleAnswer { refusal: DONE, compatible: yes as u8, offset: 0 }
}

fn bisected(leaf: &Found) -> Cell {
    Cell::at(&leaf.root, &leaf.path)
}

/// The vertices of a facet, sorted, since cells have them in various orders.
type Facet = [Option<Point>; MOST_AXES];

fn facet(cell: &Cell, place: usize) -> Facet {
    let others = cell.vertices.iter().enumerate().filter(|(other, _)| *other != place);
    let mut facet = [None; MOST_AXES];
    facet.iter_mut().zip(others).for_each(|(row, (_, vertex))| *row = Some(*vertex));
    facet.sort_unstable();
    facet
}

fn every_facet(cells: &[Cell]) -> impl Iterator<Item = (&Cell, usize)> {
    cells.iter().flat_map(|cell| (0..cell.vertices.len()).map(move |place| (cell, place)))
}

/// Each facet of each leaf lies in a face of the cube, or has its vertices in two leaves: this one and one
/// other.
fn by_facets(cells: &[Cell]) -> bool {
    let mut having: HashMap<Facet, usize> = HashMap::with_capacity(4 * cells.len());
    for (cell, place) in every_facet(cells) {
        *having.entry(facet(cell, place)).or_default() += 1;
    }
    every_facet(cells).all(|(cell, place)| {
        let others = having[&facet(cell, place)] - 1;
        others == 1 || in_face_of_cube(&facet_of(cell, place), cell.dimension())
    })
}

/// For each leaf and each facet not in a face of the cube, exactly one other leaf has all that facet's
/// vertices.
fn by_pairs(cells: &[Cell]) -> bool {
    let one_other = |number: usize, facet: &[Point]| {
        let has_all = |other: &Cell| facet.iter().all(|point| other.vertices.contains(point));
        let others = cells.iter().enumerate().filter(|(other, _)| *other != number);
        others.filter(|(_, other)| has_all(other)).count() == 1
    };
    cells.iter().enumerate().all(|(number, cell)| {
        let facets = (0..cell.vertices.len()).map(|place| facet_of(cell, place));
        let mut inside = facets.filter(|facet| !in_face_of_cube(facet, cell.dimension()));
        inside.all(|facet| one_other(number, &facet))
    })
}

/// Document 01's own rule, which the request replaced: the same-depth cell across each facet of each leaf, or
/// its parent, or one of its children, is a leaf. It judges no answer: it tells which sheets the two rules
/// judge differently.
pub fn by_old_rule(leaves: &[Found]) -> bool {
    let set: HashSet<&Found> = leaves.iter().collect();
    let near = |cell: Found| {
        set.contains(&cell)
            || cell.parent().is_some_and(|parent| set.contains(&parent))
            || (0..2).any(|which| set.contains(&cell.child(which)))
    };
    let free = |refusal| refusal == REFUSED_FACE;
    let meets = |leaf: &Found, facet| across(leaf, facet).map_or_else(free, |(cell, _)| near(cell));
    leaves.iter().all(|leaf| (0..=leaf.root.len() as u8).all(|facet| meets(leaf, facet)))
}
