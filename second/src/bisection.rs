//! Document 01, "The cube and the bisection": whole-number points, roots and cells.

use crate::sizes::{CUBE_SIDE, MOST_AXES};

/// Coordinates of axes 1..4; axes that the dimension lacks stay 0.
pub type Point = [u32; MOST_AXES];

/// An ordered list of vertices, and how many steps led to it.
#[derive(Clone, PartialEq, Debug)]
pub struct Cell {
    pub depth: usize,
    pub vertices: Vec<Point>,
}

impl Cell {
    /// Vertex 0 is the origin, vertex j is vertex j-1 moved by the cube's side on axis aj.
    pub fn root(axes: &[u8]) -> Cell {
        let mut vertices = vec![[0; MOST_AXES]];
        for axis in axes {
            let mut next = vertices[vertices.len() - 1];
            next[*axis as usize - 1] += CUBE_SIDE;
            vertices.push(next);
        }
        Cell { depth: 0, vertices }
    }

    pub fn dimension(&self) -> usize {
        self.vertices.len() - 1
    }

    /// The place k whose vertex the next bisection joins with vertex 0.
    pub fn split_place(&self) -> usize {
        let d = self.dimension();
        d - self.depth % d
    }

    /// (v0 .. v(k-1), m, v(k+1) .. vd) or (v1 .. vk, m, v(k+1) .. vd).
    pub fn child(&self, which: u8) -> Cell {
        let (v, k) = (&self.vertices, self.split_place());
        let m = midpoint(&v[0], &v[k]);
        let kept = if which == 0 { &v[..k] } else { &v[1..=k] };
        Cell { depth: self.depth + 1, vertices: [kept, &[m], &v[k + 1..]].concat() }
    }

    pub fn at(root: &[u8], path: &[u8]) -> Cell {
        path.iter().fold(Cell::root(root), |cell, which| cell.child(*which))
    }
}

fn midpoint(p: &Point, q: &Point) -> Point {
    std::array::from_fn(|a| {
        let sum = p[a] + q[a];
        assert!(sum % 2 == 0, "a midpoint is not whole: {p:?} {q:?}");
        sum / 2
    })
}

/// All permutations of the axes 1..d, in dictionary order.
pub fn roots(d: usize) -> Vec<Vec<u8>> {
    fn extend(begun: Vec<u8>, d: usize, all: &mut Vec<Vec<u8>>) {
        if begun.len() == d {
            return all.push(begun);
        }
        for axis in (1..=d as u8).filter(|a| !begun.contains(a)) {
            extend([&begun[..], &[axis]].concat(), d, all);
        }
    }
    let mut all = Vec::new();
    extend(Vec::new(), d, &mut all);
    all
}
