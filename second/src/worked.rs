//! Document 01, "Cells worked by hand", copied from the document, and cases of its change requests. The
//! second program is held to them before anything is compared with it.

use crate::answers::{Crossed, LeafAnswer, SheetAnswer, SlopeAnswer, ValueAnswer};
use crate::bisection::Cell;
use crate::codes::Code;
use crate::compatible::{by_old_rule, compatible};
use crate::crossing;
use crate::entries;
use crate::finder::{Finder, Found};
use crate::inputs::{good_path, good_root};
use crate::queries::{leaf_at, slope_at, value_at, Asked};
use crate::random::Random;
use crate::sheets::Sheets;
use crate::sizes::*;

/// A root, a path and the code: P1 to P5, and the good code of P9.
const PATHS: [(&[u8], &[u8], &[u8]); 6] = [
    (&[1, 2], &[], &[0x02, 0x00, 0x01, 0x02]),
    (&[1, 2], &[1], &[0x02, 0x01, 0x02, 0x81]),
    (&[1, 2], &[0, 1], &[0x02, 0x02, 0x81, 0x02, 0x01]),
    (&[1, 2], &[0, 1, 0, 1], &[0x02, 0x04, 0x01, 0x02, 0x01, 0x00]),
    (&[1, 2, 3], &[1], &[0x03, 0x01, 0x02, 0x03, 0x81]),
    (&[2, 1], &[1], &[0x02, 0x01, 0x01, 0x82]),
];

/// The vertices of P1 to P4.
const VERTICES: [[[u32; 2]; 3]; 4] = [
    [[0, 0], [4096, 0], [4096, 4096]],
    [[4096, 0], [4096, 4096], [2048, 2048]],
    [[4096, 0], [2048, 0], [2048, 2048]],
    [[2048, 0], [3072, 0], [3072, 1024]],
];

/// P9: bad codes.
const SIGNS: [&[u8]; 2] = [&[0x02, 0x01, 0x81, 0x02], &[0x02, 0x00, 0x01, 0x82]];

/// A code, a facet, and what is across: P6, P7, P8. Refusal 8 where there is nothing. The new vertex's
/// coordinates follow by hand from the vertices of P1 and P2 and from their children's.
const CROSSINGS: [(&[u8], u8, Option<(&[u8], u8, [u16; 2])>); 8] = [
    (&[0x02, 0x00, 0x01, 0x02], 1, Some((&[0x02, 0x00, 0x02, 0x01], 1, [0, 4096]))),
    (&[0x02, 0x00, 0x01, 0x02], 0, None),
    (&[0x02, 0x00, 0x01, 0x02], 2, None),
    (&[0x02, 0x01, 0x01, 0x02], 0, Some((&[0x02, 0x01, 0x02, 0x81], 1, [4096, 4096]))),
    (&[0x02, 0x01, 0x02, 0x81], 1, Some((&[0x02, 0x01, 0x01, 0x02], 0, [0, 0]))),
    (&[0x02, 0x02, 0x81, 0x02, 0x01], 0, Some((&[0x02, 0x02, 0x01, 0x02, 0x00], 0, [0, 0]))),
    (&[0x02, 0x02, 0x81, 0x02, 0x01], 1, Some((&[0x02, 0x02, 0x02, 0x81, 0x01], 1, [4096, 2048]))),
    (&[0x02, 0x02, 0x81, 0x02, 0x01], 2, None),
];

/// The sheet of "The listing program".
const SHEET: [u8; 24] = [
    0x43, 0x4c, 0x02, 0x00, 0x01, 0x02, 0x0a, 0x00, 0x14, 0x00, 0x32, 0x00, //
    0x43, 0x4c, 0x02, 0x00, 0x02, 0x01, 0x0a, 0x00, 0x1e, 0x00, 0x32, 0x00,
];

/// Request No. 4's case: the two children of root 12, of which each has (2048,2048), the middle of the longest
/// edge of root 21; and that root, whole or as its two children.
const HALVES: [u8; 24] = [
    0x43, 0x4c, 0x02, 0x01, 0x01, 0x02, 0x0a, 0x00, 0x14, 0x00, 0x3c, 0x00, //
    0x43, 0x4c, 0x02, 0x01, 0x02, 0x81, 0x14, 0x00, 0x32, 0x00, 0x3c, 0x00,
];
const WHOLE: [u8; 12] = [0x43, 0x4c, 0x02, 0x00, 0x02, 0x01, 0x0a, 0x00, 0x1e, 0x00, 0x32, 0x00];
const SPLIT: [u8; 24] = [
    0x43, 0x4c, 0x02, 0x01, 0x02, 0x01, 0x0a, 0x00, 0x1e, 0x00, 0x3c, 0x00, //
    0x43, 0x4c, 0x02, 0x01, 0x01, 0x82, 0x1e, 0x00, 0x32, 0x00, 0x3c, 0x00,
];

/// The codes that the worked cases name.
pub fn codes() -> Vec<Vec<u8>> {
    PATHS.iter().map(|row| row.2.to_vec()).chain(SIGNS.map(|code| code.to_vec())).collect()
}

/// Fails on the first case that the second program does not give.
pub fn check(finder: &Finder) {
    for (root, path, code) in PATHS {
        assert_eq!(Code::at(root, path).bytes(), code);
        assert_eq!(finder.read(code), Ok(Found { root: root.to_vec(), path: path.to_vec() }));
    }
    for (row, vertices) in PATHS.iter().zip(VERTICES) {
        let points = Cell::at(row.0, row.1).vertices;
        assert_eq!(points, vertices.map(|[x, y]| [x, y, 0, 0]));
    }
    for code in SIGNS {
        assert_eq!(finder.read(code), Err(REFUSED_SIGN));
    }
    crossings(finder);
    limits(finder);
    sheets(finder);
    seams(finder);
    queries(finder);
    signed_entries();
}

fn crossings(finder: &Finder) {
    for (code, facet, across) in CROSSINGS {
        let mut out = [0; 18];
        let crossed = crossing::cross(&finder.read(code), facet, &mut out);
        let expected = match across {
            None => Crossed::refused(REFUSED_FACE),
            Some((other, place, [x, y])) => {
                Crossed { refusal: DONE, place, length: other.len(), vertex: [x, y, 0, 0] }
            }
        };
        assert_eq!(crossed, expected);
        assert_eq!(&out[..crossed.length], across.map_or(&[][..], |row| row.0));
    }
}

/// Dimension 2 at depth 24 is good, 25 is refusal 2; child of depth 24 is refusal 10.
fn limits(finder: &Finder) {
    let deepest = Code::at(&[1, 2], &[0; 24]).bytes();
    let reading = finder.read(&deepest);
    assert_eq!(entries::code_check(&reading), DONE);
    assert_eq!(entries::child(&reading, 0, &mut [0; 32]).refusal, REFUSED_DEEPEST);
    let deeper = [&[2, 25], &deepest[2..]].concat();
    assert_eq!(finder.read(&deeper), Err(REFUSED_DEPTH));
    assert_eq!(entries::path_to_code(&[1, 2], &[0; 25], &mut [0; 32]).refusal, REFUSED_DEPTH);
}

/// The whole sheet is good, its first 12 bytes are refusal 14 at 12, an empty sheet is 14 at 0.
fn sheets(finder: &Finder) {
    let sheets = Sheets::new(finder);
    let early = |offset| SheetAnswer { refusal: REFUSED_LEAF, offset, records: 0 };
    assert_eq!(sheets.check(&SHEET), SheetAnswer { refusal: DONE, offset: 0, records: 2 });
    assert_eq!(sheets.check(&SHEET[..12]), early(12));
    assert_eq!(sheets.check(&[]), early(0));
}

/// The seam is let through by document 01's own rule and is not compatible; mended it is.
fn seams(finder: &Finder) {
    let sheets = Sheets::new(finder);
    let answers = |sheet: &[u8]| {
        let old = by_old_rule(&sheets.cells(sheet).expect("a good sheet"));
        (compatible(&sheets, sheet).compatible, old)
    };
    assert_eq!(answers(&SHEET), (1, true));
    assert_eq!(answers(&[&HALVES[..], &WHOLE].concat()), (0, true));
    assert_eq!(answers(&[&HALVES[..], &SPLIT].concat()), (1, true));
}

/// P10: record 0, weights 3072, 0, 1024, value 20. Coordinate 4096 is good, 4097 is refusal 12. At (1024,512)
/// the slopes are 10/4096 and 30/4096.
fn queries(finder: &Finder) {
    let asked = Asked::new(&Sheets::new(finder), &SHEET);
    let (found, mut weights) = (asked.find(&[0, 4, 0, 4]), [0; 6]);
    let leaf = LeafAnswer { refusal: DONE, offset: 0, number: 0, length: 6 };
    assert_eq!(leaf_at(&found, &mut weights), leaf);
    assert_eq!(weights, [0, 12, 0, 0, 0, 4]);
    assert_eq!(value_at(&found), ValueAnswer { refusal: DONE, offset: 0, value: 20.0 });
    assert_eq!(value_at(&asked.find(&[0, 16, 0, 16])).refusal, DONE);
    assert_eq!(value_at(&asked.find(&[1, 16, 0, 0])), ValueAnswer::refused(REFUSED_POINT, 0));
    let slope = [10.0 / 4096.0, 30.0 / 4096.0, 0.0, 0.0];
    let sloped = SlopeAnswer { refusal: DONE, offset: 0, slope };
    assert_eq!(slope_at(&asked.find(&[0, 4, 0, 2])), sloped);
    assert_eq!(slope_at(&asked.find(&[1, 16, 0, 0])), SlopeAnswer::refused(REFUSED_POINT, 0));
}

/// Not worked by hand, but said of every cell: for j up to k, vj minus v(j-1) is plus or minus s on the
/// entry's axis, by the entry's sign. It ties the code's rule to the bisection.
fn signed_entries() {
    let mut random = Random::new(1);
    for (d, depth) in every_depth().repeat(8) {
        let (root, path) = (good_root(&mut random, d), good_path(&mut random, depth));
        let (cell, code) = (Cell::at(&root, &path), Code::at(&root, &path));
        let side = (CUBE_SIDE >> (depth / d)) as i64;
        for j in 1..=cell.split_place() {
            let entry = code.entries[j - 1];
            let moved = |a: usize| cell.vertices[j][a] as i64 - cell.vertices[j - 1][a] as i64;
            let along = |a: usize| a + 1 == entry.unsigned_abs() as usize;
            let steps = |a: usize| if along(a) { entry.signum() as i64 * side } else { 0 };
            assert!((0..d).all(|a| moved(a) == steps(a)), "entry {j} of {root:?} {path:?}");
        }
    }
}
