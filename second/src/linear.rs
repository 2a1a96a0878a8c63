//! Good sheets whose samples are those of one linear function, found at each vertex: it is 1000 at the
//! origin, and its slope on each axis is a whole number over the cube's side.

use crate::bisection::{roots, Cell, Point};
use crate::codes::Code;
use crate::sheets::MARK;
use crate::sizes::CUBE_SIDE;

/// The function at a vertex, where it must be whole.
fn sample(slope: &[i64], vertex: &Point) -> u16 {
    let rise: i64 = slope.iter().zip(vertex).map(|(n, x)| n * *x as i64).sum();
    assert!(rise % CUBE_SIDE as i64 == 0, "a sample is not whole: {vertex:?}");
    u16::try_from(1000 + rise / CUBE_SIDE as i64).expect("a sample has two bytes")
}

fn record(slope: &[i64], root: &[u8], path: &[u8]) -> Vec<u8> {
    let vertices = Cell::at(root, path).vertices;
    let two = |vertex: &Point| sample(slope, vertex).to_le_bytes();
    let samples: Vec<u8> = vertices.iter().flat_map(two).collect();
    [&MARK[..], &Code::at(root, path).bytes(), &samples].concat()
}

/// The paths of a split root's leaves: child 0, child 0 of child 1 and so on, then the last child 1. There is
/// one of every depth from 1 to the one given.
fn split(depth: usize) -> Vec<Vec<u8>> {
    let ones = |n: usize| vec![1; n];
    (0..depth).map(|n| [ones(n), vec![0]].concat()).chain([ones(depth)]).collect()
}

/// The sheet of such a function, in the dimension that the slope has numbers for. The first root is split
/// down to the last level, the others are whole.
pub fn sheet(slope: &[i64]) -> Vec<u8> {
    let roots = roots(slope.len());
    let first = split(slope.len() - 1).into_iter().flat_map(|path| record(slope, &roots[0], &path));
    let others = roots[1..].iter().flat_map(|root| record(slope, root, &[]));
    first.chain(others).collect()
}
