//! The expected outcome of each entry, said of roots and paths. A code comes as the finder read it.

use crate::answers::{PathWritten, Written};
use crate::bisection::Cell;
use crate::codes::Code;
use crate::finder::Found;
use crate::sizes::*;

/// A code's cell or the code's refusal.
pub type Reading = Result<Found, u8>;

pub fn code_check(code: &Reading) -> u8 {
    code.as_ref().err().copied().unwrap_or(DONE)
}

pub fn path_to_code(root: &[u8], path: &[u8], code: &mut [u8]) -> Written {
    lend(path_code(root, path), code)
}

fn path_code(root: &[u8], path: &[u8]) -> Result<Vec<u8>, u8> {
    let d = root.len();
    if !is_dimension(d) {
        return Err(REFUSED_DIMENSION);
    }
    if path.len() > greatest_depth(d) {
        return Err(REFUSED_DEPTH);
    }
    if !(1..=d as u8).all(|axis| root.contains(&axis)) {
        return Err(REFUSED_PERMUTATION);
    }
    if path.iter().any(|step| *step > 1) {
        return Err(REFUSED_STEP);
    }
    Ok(Code::at(root, path).bytes())
}

pub fn code_to_path(code: &Reading, root: &mut [u8], path: &mut [u8]) -> PathWritten {
    let found = match code {
        Err(refusal) => return PathWritten::refused(*refusal),
        Ok(found) => found,
    };
    let (axes, depth) = (found.root.len(), found.path.len());
    if root.len() < axes || path.len() < depth {
        return PathWritten::refused(REFUSED_SHORT);
    }
    root[..axes].copy_from_slice(&found.root);
    path[..depth].copy_from_slice(&found.path);
    PathWritten { refusal: DONE, axes, depth }
}

pub fn vertices(code: &Reading, points: &mut [u8]) -> Written {
    lend(code.as_ref().map(point_bytes).map_err(|refusal| *refusal), points)
}

/// The vertices in order, two bytes for each coordinate, low byte first.
fn point_bytes(found: &Found) -> Vec<u8> {
    let d = found.root.len();
    let vertices = Cell::at(&found.root, &found.path).vertices;
    let coordinates = vertices.iter().flat_map(|point| &point[..d]);
    coordinates.flat_map(|x| [(x % 256) as u8, (x / 256) as u8]).collect()
}

pub fn child(code: &Reading, which: u8, out: &mut [u8]) -> Written {
    lend(code.clone().and_then(|found| child_code(&found, which)), out)
}

fn child_code(found: &Found, which: u8) -> Result<Vec<u8>, u8> {
    if which > 1 {
        return Err(REFUSED_STEP);
    }
    if found.path.len() == greatest_depth(found.root.len()) {
        return Err(REFUSED_DEEPEST);
    }
    Ok(Code::at(&found.root, &[&found.path[..], &[which]].concat()).bytes())
}

pub fn parent(code: &Reading, out: &mut [u8]) -> Written {
    lend(code.clone().and_then(|found| parent_code(&found)), out)
}

fn parent_code(found: &Found) -> Result<Vec<u8>, u8> {
    let (_last, path) = found.path.split_last().ok_or(REFUSED_ROOT)?;
    Ok(Code::at(&found.root, path).bytes())
}

/// Puts an answer at the front of a lent output, or refuses and changes nothing.
fn lend(answer: Result<Vec<u8>, u8>, out: &mut [u8]) -> Written {
    match answer {
        Err(refusal) => Written::refused(refusal),
        Ok(bytes) if out.len() < bytes.len() => Written::refused(REFUSED_SHORT),
        Ok(bytes) => {
            out[..bytes.len()].copy_from_slice(&bytes);
            Written { refusal: DONE, length: bytes.len() }
        }
    }
}
