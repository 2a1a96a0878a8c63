//! Points as sums of other points, with weights whose sum is 1. The equations are solved as they stand, by
//! elimination in whole numbers; nothing of a cell's form is used.

use crate::bisection::Point;
use crate::sizes::MOST_AXES;

/// One equation: factors of the unknowns, here weights, then those of what stands on the right side, here a
/// point's coordinates and 1.
pub type Row = Vec<i128>;

/// A whole number for any point: a factor for each coordinate and one for 1, over a number above 0.
struct Form {
    coordinates: [i128; MOST_AXES],
    one: i128,
    over: i128,
}

/// The points that lie between given ones, of which none is such a sum of the others. The point asked for
/// stands on the right sides of the equations alone, so that one elimination serves all points.
pub struct Hull {
    weights: Vec<Form>,
    zeros: Vec<Form>,
}

impl Hull {
    /// An equation from which no unknown is solved is left with none, and its right side is 0 at a sum.
    pub fn new(points: &[Point], d: usize) -> Hull {
        let (mut rows, unknowns) = (equations(points, d), points.len());
        (0..unknowns).for_each(|place| eliminate(&mut rows, place));
        let weight = |(place, row): (usize, &Row)| form(&row[unknowns..], row[place]);
        let weights = rows[..unknowns].iter().enumerate().map(weight).collect();
        let zeros = rows[unknowns..].iter().map(|row| form(&row[unknowns..], 1)).collect();
        Hull { weights, zeros }
    }

    /// A point's weights in the order of the given points, each as a number and what it is over. None
    /// where the point is no sum of them, or one with a weight below 0.
    pub fn weights(&self, point: &Point) -> Option<Vec<(i128, i128)>> {
        if self.zeros.iter().any(|zero| zero.at(point) != 0) {
            return None;
        }
        let weight = |form: &Form| {
            let above = form.at(point);
            (above >= 0).then_some((above, form.over))
        };
        self.weights.iter().map(weight).collect()
    }

    /// Does the whole list of points lie inside?
    pub fn has(&self, points: &[Point]) -> bool {
        points.iter().all(|point| self.weights(point).is_some())
    }
}

impl Form {
    fn at(&self, point: &Point) -> i128 {
        let along = self.coordinates.iter().zip(point).map(|(factor, x)| factor * *x as i128);
        along.sum::<i128>() + self.one
    }
}

/// For each axis: the weighted coordinates of the points are the asked one's. And the sum is 1.
fn equations(points: &[Point], d: usize) -> Vec<Row> {
    let right = |place: usize| (0..=d).map(move |other| (other == place) as i128);
    let axis = |a: usize| points.iter().map(|p| p[a] as i128).chain(right(a)).collect();
    let sum = points.iter().map(|_| 1).chain(right(d)).collect();
    (0..d).map(axis).chain([sum]).collect()
}

/// Leaves the unknown of a place in the row of that place alone.
pub fn eliminate(rows: &mut [Row], place: usize) {
    let with = (place..rows.len()).find(|r| rows[*r][place] != 0);
    rows.swap(place, with.expect("a point is a sum of the others"));
    let pivot = rows[place].clone();
    for (_, row) in rows.iter_mut().enumerate().filter(|(r, _)| *r != place) {
        let factor = row[place];
        row.iter_mut().zip(&pivot).for_each(|(n, p)| *n = *n * pivot[place] - p * factor);
        let common = row.iter().fold(0, |common, n| divisor(common, *n));
        row.iter_mut().for_each(|n| *n /= common);
    }
}

/// The greatest common divisor.
pub fn divisor(a: i128, b: i128) -> i128 {
    if b == 0 {
        a.abs()
    } else {
        divisor(b, a % b)
    }
}

/// A row's right side over the factor of its unknown.
fn form(right: &[i128], factor: i128) -> Form {
    let (sign, d) = (factor.signum(), right.len() - 1);
    let coordinates = std::array::from_fn(|a| if a < d { sign * right[a] } else { 0 });
    Form { coordinates, one: sign * right[d], over: sign * factor }
}
