//! Document 01, "Crossing", by geometry: the cell of the same depth that has a point just beyond the
//! facet's middle. It is looked for from the roots down, with exact whole weights, and its vertices are
//! then held against the facet's. Also the same by listing all cells of a depth.

use crate::answers::Crossed;
use crate::bisection::{roots, Cell, Point};
use crate::codes::Code;
use crate::entries::Reading;
use crate::finder::Found;
use crate::sizes::*;
use std::collections::HashMap;

/// The point lies beyond the facet's middle by this part of the way from the lacking vertex to there. It
/// is small enough for the cells that occur; that the cell found has the facet's vertices is checked.
const PART: i64 = 16;

/// A point times a common scale, so that its coordinates are whole.
struct Scaled {
    scale: i64,
    point: [i64; MOST_AXES],
}

/// The cell across a facet with the place of its new vertex.
type Across = Result<(Found, u8), u8>;

pub fn cross(code: &Reading, facet: u8, out: &mut [u8]) -> Crossed {
    let found = match code {
        Err(refusal) => return Crossed::refused(*refusal),
        Ok(found) => found,
    };
    answer(across(found, facet), out)
}

/// Puts the code of the cell across at the front of a lent output, or refuses and changes nothing.
pub fn answer(across: Across, out: &mut [u8]) -> Crossed {
    let (other, place) = match across {
        Err(refusal) => return Crossed::refused(refusal),
        Ok(other) => other,
    };
    let code = Code::at(&other.root, &other.path).bytes();
    if out.len() < code.len() {
        return Crossed::refused(REFUSED_SHORT);
    }
    out[..code.len()].copy_from_slice(&code);
    let new = Cell::at(&other.root, &other.path).vertices[place as usize];
    Crossed { refusal: DONE, place, length: code.len(), vertex: coordinates(&new) }
}

/// A point as an answer has it. The axes that the dimension lacks are 0 in both.
pub fn coordinates(point: &Point) -> [u16; MOST_AXES] {
    point.map(|x| u16::try_from(x).expect("a coordinate of the cube"))
}

pub fn across(found: &Found, facet: u8) -> Across {
    let (d, depth) = (found.root.len(), found.path.len());
    if facet as usize > d {
        return Err(REFUSED_STEP);
    }
    let cell = Cell::at(&found.root, &found.path);
    let shared = facet_of(&cell, facet as usize);
    if in_face_of_cube(&shared, d) {
        return Err(REFUSED_FACE);
    }
    let other = cell_around(&beyond(&cell, facet as usize), d, depth);
    assert!(other != *found, "the point beyond facet {facet} of {found:?} is in the cell itself");
    let place = new_place(&Cell::at(&other.root, &other.path), &shared);
    Ok((other, place.expect("the cell beyond a facet lacks a vertex of it")))
}

pub fn facet_of(cell: &Cell, lacking: usize) -> Vec<Point> {
    let mut vertices = cell.vertices.clone();
    vertices.remove(lacking);
    vertices
}

/// Some axis has the same coordinate, 0 or 4096, at all vertices.
pub fn in_face_of_cube(facet: &[Point], d: usize) -> bool {
    (0..d).any(|a| [0, CUBE_SIDE].iter().any(|x| facet.iter().all(|point| point[a] == *x)))
}

/// The place of the one vertex that the facet has not, if the cell has all of the facet's.
fn new_place(cell: &Cell, facet: &[Point]) -> Option<u8> {
    if !facet.iter().all(|point| cell.vertices.contains(point)) {
        return None;
    }
    cell.vertices.iter().position(|point| !facet.contains(point)).map(|place| place as u8)
}

/// With b the sum of the facet's vertices and v the lacking one: b/d + (b/d - v)/PART.
fn beyond(cell: &Cell, facet: usize) -> Scaled {
    let d = cell.dimension() as i64;
    let point = std::array::from_fn(|a| {
        let sum: i64 = facet_of(cell, facet).iter().map(|point| point[a] as i64).sum();
        PART * sum + sum - d * cell.vertices[facet][a] as i64
    });
    Scaled { scale: PART * d, point }
}

/// The cell of a depth that has a point in its inside.
fn cell_around(at: &Scaled, d: usize, depth: usize) -> Found {
    let inside = |weights: &Vec<i64>| weights.iter().all(|w| *w > 0);
    let all = roots(d).into_iter().map(|root| (root_weights(&root, at), root));
    let (mut weights, root) = all.into_iter().find(|(w, _)| inside(w)).expect("no root has it");
    let mut path = Vec::new();
    while path.len() < depth {
        let k = d - path.len() % d;
        let halves = [child_weights(&weights, k, 0), child_weights(&weights, k, 1)];
        let which = halves.iter().position(inside).expect("no child has the point inside");
        weights = halves[which].clone();
        path.push(which as u8);
    }
    hold_weights(&weights, &Cell::at(&root, &path), at);
    Found { root, path }
}

/// The point as a sum of the root's vertices: each vertex is the one before moved on one axis.
fn root_weights(root: &[u8], at: &Scaled) -> Vec<i64> {
    let along = |j: usize| match j {
        0 => at.scale * CUBE_SIDE as i64,
        j if j > root.len() => 0,
        j => at.point[root[j - 1] as usize - 1],
    };
    (0..=root.len()).map(|j| along(j) - along(j + 1)).collect()
}

/// Child 0 has 2m - v0 for vk, child 1 has 2m - vk for v0.
fn child_weights(w: &[i64], k: usize, which: u8) -> Vec<i64> {
    match which {
        0 => [&[w[0] - w[k]], &w[1..k], &[2 * w[k]], &w[k + 1..]].concat(),
        _ => [&w[1..k], &[w[k] - w[0], 2 * w[0]], &w[k + 1..]].concat(),
    }
}

/// The weights are those of the point: their sum is the whole, and the weighted vertices give the point.
fn hold_weights(weights: &[i64], cell: &Cell, at: &Scaled) {
    let whole = at.scale * CUBE_SIDE as i64;
    assert_eq!(weights.iter().sum::<i64>(), whole);
    for a in 0..MOST_AXES {
        let sum: i64 = weights.iter().zip(&cell.vertices).map(|(w, v)| w * v[a] as i64).sum();
        assert_eq!(sum, at.point[a] * CUBE_SIDE as i64);
    }
}

/// All cells of a dimension at a depth, by the sorted vertices of each facet.
pub struct EveryCell {
    pub cells: Vec<Found>,
    having: HashMap<Vec<Point>, Vec<(usize, u8)>>,
}

impl EveryCell {
    pub fn new(d: usize, depth: usize) -> EveryCell {
        let mut all = EveryCell { cells: Vec::new(), having: HashMap::new() };
        for root in roots(d) {
            for number in 0..1u32 << depth {
                let path = (0..depth).map(|t| (number >> t & 1) as u8).collect();
                all.add(Found { root: root.clone(), path });
            }
        }
        all
    }

    fn add(&mut self, found: Found) {
        let cell = Cell::at(&found.root, &found.path);
        for place in 0..cell.vertices.len() {
            let mut facet = facet_of(&cell, place);
            facet.sort();
            self.having.entry(facet).or_default().push((self.cells.len(), place as u8));
        }
        self.cells.push(found);
    }

    /// The only other cell that has all the facet's vertices. There is none exactly in a face of the cube.
    pub fn across(&self, number: usize, facet: u8) -> Across {
        let found = &self.cells[number];
        let mut shared = facet_of(&Cell::at(&found.root, &found.path), facet as usize);
        shared.sort();
        let others: Vec<_> = self.having[&shared].iter().filter(|row| row.0 != number).collect();
        assert!(others.len() < 2, "facet {facet} of {found:?} has three cells");
        assert_eq!(others.is_empty(), in_face_of_cube(&shared, found.root.len()));
        let (other, place) = others.first().ok_or(REFUSED_FACE)?;
        Ok((self.cells[*other].clone(), *place))
    }
}
