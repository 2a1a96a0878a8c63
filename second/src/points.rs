//! Points to ask a sheet for: in cells, on their vertices, edges and facets, around them, and outside the
//! cube.

use crate::bisection::{Cell, Point};
use crate::hulls::divisor;
use crate::random::Random;
use crate::sizes::*;

/// Coordinates outside the cube: just so, and with low bytes that look good.
const OUTSIDE: [u32; 6] = [CUBE_SIDE + 1, CUBE_SIDE + 256, 2 * CUBE_SIDE, 32_768, 65_280, 65_535];

/// Two bytes for each of the first d coordinates, low byte first.
pub fn bytes(point: &Point, d: usize) -> Vec<u8> {
    point[..d].iter().flat_map(|x| [(x % 256) as u8, (x / 256) as u8]).collect()
}

/// A whole point on the way from one to another, an end or the middle among them.
fn toward(random: &mut Random, from: &Point, to: &Point) -> Point {
    let moved: [i128; MOST_AXES] = std::array::from_fn(|a| to[a] as i128 - from[a] as i128);
    let parts = moved.iter().fold(0, |common, m| divisor(common, *m)).max(1);
    let middle = parts % 2 == 0 && random.once_in(2);
    let part = if middle { parts / 2 } else { random.below(parts as usize + 1) as i128 };
    std::array::from_fn(|a| (from[a] as i128 + moved[a] / parts * part) as u32)
}

/// A point in the part of a closed cell that so many of its vertices span: one is a vertex, two an edge,
/// d a facet, d + 1 the cell.
pub fn spanned(random: &mut Random, cell: &Cell, vertices: usize) -> Point {
    let mut left = cell.vertices.clone();
    let mut point = left.swap_remove(random.below(left.len()));
    for _ in 1..vertices {
        let vertex = left.swap_remove(random.below(left.len()));
        point = toward(random, &point, &vertex);
    }
    point
}

/// The vertices of a cell and the middles of its edges, where they are whole.
pub fn vertices_and_middles(cell: &Cell) -> Vec<Point> {
    let v = &cell.vertices;
    let pairs = (0..v.len()).flat_map(|i| (i..v.len()).map(move |j| (i, j)));
    let whole = pairs.filter(|(i, j)| (0..MOST_AXES).all(|a| (v[*i][a] + v[*j][a]) % 2 == 0));
    whole.map(|(i, j)| std::array::from_fn(|a| (v[i][a] + v[j][a]) / 2)).collect()
}

/// All corners of the cube.
pub fn corners(d: usize) -> Vec<Point> {
    let corner = |sides: u32| std::array::from_fn(|a| (sides >> a & 1) * CUBE_SIDE);
    (0..1 << d).map(corner).collect()
}

/// Anywhere in the cube; or on a coarse grid, where coordinates are often equal.
pub fn anywhere(random: &mut Random, d: usize) -> Point {
    let step = random.one_of(&[1, 1, 1, 64, 1024]);
    let mut coordinate = || step * random.below((CUBE_SIDE / step) as usize + 1) as u32;
    std::array::from_fn(|a| if a < d { coordinate() } else { 0 })
}

/// Moved by one on an axis, past a face of the cube now and then.
fn beside(random: &mut Random, point: Point, d: usize) -> Point {
    let (mut point, a) = (point, random.below(d));
    point[a] = if random.once_in(2) { point[a] + 1 } else { point[a].saturating_sub(1) };
    point
}

/// The point with one coordinate outside the cube or at its far side, the others as they were.
pub fn around(point: &Point, d: usize) -> Vec<Point> {
    let moved = |(a, x): (usize, u32)| {
        let mut point = *point;
        point[a] = x;
        point
    };
    let values = |a| OUTSIDE.iter().chain(&[CUBE_SIDE]).map(move |x| (a, *x));
    (0..d).flat_map(values).map(moved).collect()
}

/// A point of one kind after the other, about a cell of the sheet where the kind asks for one.
pub fn of_kind(random: &mut Random, kind: usize, cell: &Cell) -> Point {
    let d = cell.dimension();
    match kind % 10 {
        0 => spanned(random, cell, 1),
        1 => spanned(random, cell, 2),
        2 => spanned(random, cell, 3),
        3 => spanned(random, cell, d),
        4 | 5 => spanned(random, cell, d + 1),
        6 => {
            let point = spanned(random, cell, d);
            beside(random, point, d)
        }
        7 => random.one_of(&corners(d)),
        _ => anywhere(random, d),
    }
}
