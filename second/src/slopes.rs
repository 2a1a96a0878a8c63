//! The slope of the grey field in a cell: that of the only linear function through the samples at its
//! vertices. The equations of any two vertices are solved as they stand, by elimination in whole numbers;
//! nothing of a cell's form is used.

use crate::bisection::Point;
use crate::hulls::{eliminate, Row};

/// Samples at the vertices of a cell, and the side of its box.
struct Field<'a> {
    vertices: &'a [Point],
    samples: &'a [u16],
    side: i128,
}

/// The slope on each axis as a whole number over the side of the box.
pub fn slope(vertices: &[Point], samples: &[u16], side: i128) -> Vec<i128> {
    let field = Field { vertices, samples, side };
    let slope = field.solved();
    field.hold(&slope);
    slope
}

impl Field<'_> {
    fn axes(&self) -> usize {
        self.vertices.len() - 1
    }

    /// From one vertex to another: the slope times the way on each axis is the side times the rise.
    fn equation(&self, from: usize, to: usize) -> Row {
        let way = |a: usize| self.vertices[to][a] as i128 - self.vertices[from][a] as i128;
        let rise = self.samples[to] as i128 - self.samples[from] as i128;
        (0..self.axes()).map(way).chain([self.side * rise]).collect()
    }

    /// From vertex 0 to each other one. A row has one unknown in the end.
    fn solved(&self) -> Vec<i128> {
        let d = self.axes();
        let mut rows: Vec<Row> = (1..=d).map(|to| self.equation(0, to)).collect();
        (0..d).for_each(|place| eliminate(&mut rows, place));
        let whole = |(place, row): (usize, &Row)| {
            assert!(row[d] % row[place] == 0, "a slope is not whole over the side");
            row[d] / row[place]
        };
        rows.iter().enumerate().map(whole).collect()
    }

    /// From every vertex to every other.
    fn hold(&self, slope: &[i128]) {
        let d = self.axes();
        for (from, to) in (0..=d).flat_map(|from| (0..=d).map(move |to| (from, to))) {
            let row = self.equation(from, to);
            let sum: i128 = slope.iter().zip(&row).map(|(n, way)| n * way).sum();
            assert_eq!(sum, row[d], "a slope does not lead from {from} to {to}");
        }
    }
}
