//! Document 01, "Sheets": the weights of a point in a cell. The document's equations are solved as they
//! stand, over the cell's vertices; nothing of a cell's form is used.

use crate::bisection::{Cell, Point};
use crate::hulls::Hull;
use crate::sizes::*;

/// A cell with its equations solved.
pub struct Weighing {
    cell: Cell,
    hull: Hull,
}

impl Weighing {
    pub fn new(cell: Cell) -> Weighing {
        Weighing { hull: Hull::new(&cell.vertices, cell.dimension()), cell }
    }

    /// The side of the cell's box: the cube is halved on every axis once in d steps.
    pub fn side(&self) -> i128 {
        (CUBE_SIDE >> (self.cell.depth / self.cell.dimension())) as i128
    }

    pub fn vertices(&self) -> &[Point] {
        &self.cell.vertices
    }

    /// The weights in vertex order, or none if the closed cell has not the point.
    pub fn weights(&self, point: &Point) -> Option<Vec<i128>> {
        let weight = |(above, over): (i128, i128)| {
            assert!(above * self.side() % over == 0, "a weight is not whole");
            above * self.side() / over
        };
        let weights = self.hull.weights(point)?.into_iter().map(weight).collect();
        self.hold(&weights, point);
        Some(weights)
    }

    /// The document's own words: each from 0 to s, the sum s, the weighted vertices s times the point.
    fn hold(&self, weights: &Vec<i128>, point: &Point) {
        let side = self.side();
        assert!(weights.iter().all(|w| 0 <= *w && *w <= side));
        assert_eq!(weights.iter().sum::<i128>(), side);
        for (a, x) in point.iter().enumerate() {
            let vertices = self.cell.vertices.iter().map(|vertex| vertex[a] as i128);
            let sum: i128 = weights.iter().zip(vertices).map(|(w, v)| w * v).sum();
            assert_eq!(sum, side * *x as i128);
        }
    }
}

/// Digits of a binary64 after the first, and what its exponent's field has more than the exponent.
const DIGITS: usize = 52;
const BIAS: i64 = 1023;

/// A fraction as a binary64, by long division, one binary digit after the other. It must end within them.
pub fn binary64(above: u128, below: u128) -> f64 {
    if above == 0 {
        return f64::from_bits(0);
    }
    let (mut above, mut below, mut exponent) = (above, below, 0);
    while above >= 2 * below {
        (below, exponent) = (2 * below, exponent + 1);
    }
    while above < below {
        (above, exponent) = (2 * above, exponent - 1);
    }
    let (mut rest, mut digits) = (above - below, 0);
    for _ in 0..DIGITS {
        let digit = (2 * rest >= below) as u128;
        (rest, digits) = (2 * rest - digit * below, 2 * digits + digit as u64);
    }
    assert_eq!(rest, 0, "a value is not a binary64");
    f64::from_bits(((exponent + BIAS) as u64) << DIGITS | digits)
}

/// The same with a sign. Zero is +0.0.
pub fn signed64(above: i128, below: i128) -> f64 {
    let size = binary64(above.unsigned_abs(), below as u128);
    if above < 0 {
        -size
    } else {
        size
    }
}
