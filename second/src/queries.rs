//! Document 01, "Sheets": the leaf and the grey value at a point; and the slope there. All leaves are tried in
//! tree order, and the first whose closed cell has the point is the one.

use crate::answers::{LeafAnswer, SlopeAnswer, ValueAnswer};
use crate::bisection::Point;
use crate::sheets::{Refused, Sampled, Sheets};
use crate::sizes::*;
use crate::slopes::slope;
use crate::weighing::{binary64, signed64, Weighing};
use std::cell::OnceCell;

/// A leaf that points are weighed in, and its samples. Its slope is found when a point is first met in it.
struct Leaf {
    weighing: Weighing,
    samples: Vec<u16>,
    slope: OnceCell<Vec<i128>>,
}

/// A sheet's leaves or its refusal: read once, asked for many points.
pub struct Asked {
    leaves: Result<Vec<Leaf>, Refused>,
}

/// The leaf at a point: its number, the point's weights there, and the weighted samples and the slope with s.
pub struct AtPoint {
    number: usize,
    weights: Vec<i128>,
    samples: i128,
    slope: Vec<i128>,
    side: i128,
}

/// What all queries answer from.
pub type Finding = Result<AtPoint, Refused>;

impl Leaf {
    fn new(Sampled { cell, samples }: Sampled) -> Leaf {
        Leaf { weighing: Weighing::new(cell), samples, slope: OnceCell::new() }
    }

    fn slope(&self) -> &Vec<i128> {
        let found = || slope(self.weighing.vertices(), &self.samples, self.weighing.side());
        self.slope.get_or_init(found)
    }
}

impl Asked {
    pub fn new(sheets: &Sheets, sheet: &[u8]) -> Asked {
        let leaves = sheets.leaves(sheet).map(|leaves| leaves.into_iter().map(Leaf::new).collect());
        Asked { leaves }
    }

    /// The sheet's refusal comes first, then the point's.
    pub fn find(&self, point: &[u8]) -> Finding {
        let leaves = self.leaves.as_ref().map_err(|refused| *refused)?;
        let d = leaves[0].samples.len() - 1;
        let point = read_point(point, d).ok_or((REFUSED_POINT, 0))?;
        let tried = leaves.iter().map(|leaf| leaf.weighing.weights(&point));
        let first = tried.enumerate().find_map(|(number, w)| w.map(|weights| (number, weights)));
        let (number, weights) = first.expect("no leaf has the point");
        let leaf = &leaves[number];
        let samples =
            weights.iter().zip(&leaf.samples).map(|(w, sample)| w * *sample as i128).sum();
        let (slope, side) = (leaf.slope().clone(), leaf.weighing.side());
        Ok(AtPoint { number, weights, samples, slope, side })
    }
}

/// d coordinates from 0 to 4096.
fn read_point(bytes: &[u8], d: usize) -> Option<Point> {
    let coordinate = |a: usize| bytes[2 * a] as u32 + 256 * bytes[2 * a + 1] as u32;
    if bytes.len() != 2 * d || (0..d).any(|a| coordinate(a) > CUBE_SIDE) {
        return None;
    }
    Some(std::array::from_fn(|a| if a < d { coordinate(a) } else { 0 }))
}

/// Puts the weights at the front of a lent output, or refuses and changes nothing.
pub fn leaf_at(finding: &Finding, weights: &mut [u8]) -> LeafAnswer {
    let found = match finding {
        Err((refusal, offset)) => return LeafAnswer::refused(*refusal, *offset),
        Ok(found) => found,
    };
    let two = |w: &i128| [(w % 256) as u8, (w / 256) as u8];
    let bytes: Vec<u8> = found.weights.iter().flat_map(two).collect();
    if weights.len() < bytes.len() {
        return LeafAnswer::refused(REFUSED_SHORT, 0);
    }
    weights[..bytes.len()].copy_from_slice(&bytes);
    LeafAnswer { refusal: DONE, offset: 0, number: found.number, length: bytes.len() }
}

pub fn value_at(finding: &Finding) -> ValueAnswer {
    match finding {
        Err((refusal, offset)) => ValueAnswer::refused(*refusal, *offset),
        Ok(found) => {
            let value = binary64(found.samples as u128, found.side as u128);
            ValueAnswer { refusal: DONE, offset: 0, value }
        }
    }
}

pub fn slope_at(finding: &Finding) -> SlopeAnswer {
    match finding {
        Err((refusal, offset)) => SlopeAnswer::refused(*refusal, *offset),
        Ok(found) => {
            let on_axis = |a| signed64(found.slope.get(a).copied().unwrap_or(0), found.side);
            SlopeAnswer { refusal: DONE, offset: 0, slope: std::array::from_fn(on_axis) }
        }
    }
}
