//! Holds the library to this: crossing and splitting agree. Take any cell whose depth is less than the
//! greatest, its facet i, and a child of the cell with a facet lying inside facet i. If crossing i is
//! refused with 8, so is that child's crossing. Otherwise the child's crossing leads to a child of the
//! cell across i.
//!
//! Which facets lie inside which is decided on points, and those of a cell and its children are the second
//! program's. Their codes, what is across them and its children are the library's.

use second::answers::Crossed;
use second::bisection::{Cell, Point};
use second::crossing::{coordinates, facet_of, in_face_of_cube, EveryCell};
use second::finder::{Finder, Found};
use second::hulls::Hull;
use second::inputs::{self, Options};
use second::lent::{Lent, Tally};
use second::random::Random;
use second::sizes::*;
use second::worked;
use std::collections::HashMap;

/// The library's entries, lent as much as a good answer takes: what was written, or the refusal.
mod library {
    use super::Across;
    use second::answers::{Crossed, Written};
    use second::sizes::*;

    type In = *const u8;
    type Out = *mut u8;

    extern "C" {
        fn rmk_path_to_code(r: In, rn: usize, p: In, pn: usize, code: Out, n: usize) -> Written;
        fn rmk_vertices(code: In, n: usize, points: Out, pn: usize) -> Written;
        fn rmk_child(code: In, n: usize, which: u8, out: Out, on: usize) -> Written;
        fn rmk_parent(code: In, n: usize, out: Out, on: usize) -> Written;
        fn rmk_cross(code: In, n: usize, facet: u8, out: Out, on: usize) -> Crossed;
    }

    pub fn path_to_code(r: &[u8], p: &[u8]) -> Result<Vec<u8>, u8> {
        let (rn, pn) = (r.len(), p.len());
        written(code_length(rn, pn), |out, n| unsafe {
            rmk_path_to_code(r.as_ptr(), rn, p.as_ptr(), pn, out, n)
        })
    }

    pub fn vertices(c: &[u8], d: usize) -> Result<Vec<u8>, u8> {
        let length = 2 * d * (d + 1);
        written(length, |out, n| unsafe { rmk_vertices(c.as_ptr(), c.len(), out, n) })
    }

    pub fn child(c: &[u8], which: u8) -> Result<Vec<u8>, u8> {
        let length = c.len() + 1;
        written(length, |out, n| unsafe { rmk_child(c.as_ptr(), c.len(), which, out, n) })
    }

    pub fn parent(c: &[u8]) -> Result<Vec<u8>, u8> {
        written(c.len(), |out, n| unsafe { rmk_parent(c.as_ptr(), c.len(), out, n) })
    }

    pub fn cross(c: &[u8], facet: u8, o: &mut [u8]) -> Crossed {
        unsafe { rmk_cross(c.as_ptr(), c.len(), facet, o.as_mut_ptr(), o.len()) }
    }

    pub fn across(c: &[u8], facet: u8) -> Across {
        let mut code = vec![0; c.len()];
        let Crossed { refusal, place, length, vertex } = cross(c, facet, &mut code);
        code.truncate(length);
        let kept = refusal == DONE || vertex == [0; MOST_AXES];
        assert!(kept, "{c:?} across {facet} is refused, with a vertex: {vertex:?}");
        (refusal == DONE).then_some((code, place, vertex)).ok_or(refusal)
    }

    fn written(length: usize, entry: impl FnOnce(Out, usize) -> Written) -> Result<Vec<u8>, u8> {
        let mut out = vec![0; length];
        let answer = entry(out.as_mut_ptr(), length);
        out.truncate(answer.length);
        (answer.refusal == DONE).then_some(out).ok_or(answer.refusal)
    }
}

/// The code of the cell across a facet, the place of its new vertex and that vertex, or the refusal.
type Across = Result<(Vec<u8>, u8, [u16; MOST_AXES]), u8>;

/// Where a child's crossing leads: nowhere; to the child of the same number, or of the other one, of the
/// cell across; to the other child of the same cell.
const REFUSED: &str = "refused";
const KEPT: &str = "number kept";
const CHANGED: &str = "number changed";
const SIBLING: &str = "to the sibling";
const KINDS: [&str; 4] = [REFUSED, KEPT, CHANGED, SIBLING];

/// A cell's points and its code.
struct Named {
    cell: Cell,
    code: Vec<u8>,
}

/// A cell with its children and the hulls of its facets.
struct Split {
    found: Found,
    whole: Named,
    children: [Named; 2],
    hulls: Vec<Hull>,
}

impl Split {
    fn new(found: &Found) -> Split {
        let Found { root, path } = found;
        let given = |code: Result<Vec<u8>, u8>| {
            code.unwrap_or_else(|refusal| fail(found, &format!("a code is refused with {refusal}")))
        };
        let cell = Cell::at(root, path);
        let code = given(library::path_to_code(root, path));
        let child = |b| Named { cell: cell.child(b), code: given(library::child(&code, b)) };
        let hull = |i| Hull::new(&facet_of(&cell, i), root.len());
        let (children, hulls) = ([0, 1].map(child), (0..=root.len()).map(hull).collect());
        Split { found: found.clone(), whole: Named { cell, code }, children, hulls }
    }

    fn dimension(&self) -> usize {
        self.found.root.len()
    }

    /// Is the other child of the cell's parent the one of this code?
    fn has_sibling(&self, code: &[u8]) -> bool {
        let parent = library::parent(&self.whole.code);
        parent.is_ok() && parent == library::parent(code) && self.whole.code != code
    }

    /// The place in a child of the facet between both children.
    fn between(&self, b: u8) -> u8 {
        [0, self.whole.cell.split_place() as u8 - 1][b as usize]
    }

    fn facet(&self, b: u8, j: u8) -> Facet<'_> {
        let points = facet_of(&self.children[b as usize].cell, j as usize);
        let around = |i: &u8| self.hulls[*i as usize].has(&points);
        let inside = (0..=self.dimension() as u8).filter(around).collect();
        Facet { split: self, b, j, points, inside }
    }
}

/// Facet j of child b: its points, and the places of the cell's facets that it lies inside.
struct Facet<'a> {
    split: &'a Split,
    b: u8,
    j: u8,
    points: Vec<Point>,
    inside: Vec<u8>,
}

impl Facet<'_> {
    fn child(&self) -> &Named {
        &self.split.children[self.b as usize]
    }

    fn fail(&self, what: &str) -> ! {
        let facet = format!("facet {} of child {}, inside {:?}", self.j, self.b, self.inside);
        fail(&self.split.found, &format!("{facet}: {what}"))
    }

    fn hold(&self, holds: bool, what: &str) {
        if !holds {
            self.fail(what);
        }
    }

    fn given<T>(&self, answer: Result<T, u8>, entry: &str) -> T {
        answer.unwrap_or_else(|refusal| self.fail(&format!("{entry} is refused with {refusal}")))
    }

    /// The cell's facet i, which it lies inside.
    fn around(&self, i: u8) -> Vec<Point> {
        facet_of(&self.split.whole.cell, i as usize)
    }

    /// The place of the cell's facet that it is to lie inside; none between both children.
    fn expected_inside(&self) -> Option<u8> {
        let (k, j) = (self.split.whole.cell.split_place() as u8, self.j);
        match self.b {
            b if j == self.split.between(b) => None,
            1 if j == k => Some(0),
            1 if j < k => Some(j + 1),
            _ => Some(j),
        }
    }

    /// A child's facet lies inside just one of the cell's, but for the one between both children.
    fn hold_inside(&self) {
        self.hold(self.inside.iter().eq(&self.expected_inside()), "not inside the one facet");
        self.inside.iter().for_each(|i| self.hold_half(*i));
    }

    /// The split halves the edge from v0 to vk. A facet that lacks an end of it stays whole, and lies
    /// inside the child's too. Any other is halved, and has points outside its half, though in its plane.
    fn hold_half(&self, i: u8) {
        let back = Hull::new(&self.points, self.split.dimension()).has(&self.around(i));
        let whole = [0, self.split.whole.cell.split_place()].contains(&(i as usize));
        self.hold(back == whole, "the facet around it is halved and inside it, or neither");
    }

    /// Where the crossing is to lead: between both children to the other one; else to a child of the cell
    /// across, of the same number where the cell's new vertex has the lacking one's place. It has another
    /// place only in the cell's sibling. The child's own new vertex always has that place, and the
    /// coordinates that the bisection gives there: of the child's sibling, or of the cell across.
    fn expected(&self) -> (&'static str, Across) {
        let Some(i) = self.inside.first() else {
            let place = self.split.between(1 - self.b);
            let Named { cell, code } = &self.split.children[1 - self.b as usize];
            let new = coordinates(&cell.vertices[place as usize]);
            return (SIBLING, Ok((code.clone(), place, new)));
        };
        let (code, place, vertex) = match library::across(&self.split.whole.code, *i) {
            Err(REFUSED_FACE) => return (REFUSED, Err(REFUSED_FACE)),
            answer => self.given(answer, "the cell's crossing"),
        };
        let (kind, b) = if place == *i { (KEPT, self.b) } else { (CHANGED, 1 - self.b) };
        let near = kind == KEPT || self.split.has_sibling(&code);
        self.hold(near, "the place changed, to no sibling");
        let vertices = self.points_across(&code);
        let other = Cell { depth: self.split.whole.cell.depth, vertices };
        let lands = other.vertices.get(place as usize).is_some_and(|v| coordinates(v) == vertex);
        self.hold(lands, "the cell's new vertex is elsewhere");
        let new = coordinates(&other.child(b).vertices[self.j as usize]);
        (kind, Ok((self.given(library::child(&code, b), "a child across"), self.j, new)))
    }

    /// The library's points of a cell across.
    fn points_across(&self, code: &[u8]) -> Vec<Point> {
        let d = self.split.dimension();
        points(&self.given(library::vertices(code, d), "the cell across"), d)
    }

    /// Refused just where the facet lies in a face of the cube, as the one around it does.
    fn hold_faces(&self, refused: bool) {
        let same = |points: &[Point]| in_face_of_cube(points, self.split.dimension()) == refused;
        self.hold(same(&self.points), "in a face of the cube or refused, not both");
        let around = self.inside.iter().all(|i| same(&self.around(*i)));
        self.hold(around, "the facet around it is in a face of the cube or refused, not both");
    }

    /// The cell across has all points of the facet, and at the place one that the child has not.
    fn hold_points(&self, code: &[u8], place: u8) {
        let points = self.points_across(code);
        let has_facet = self.points.iter().all(|point| points.contains(point));
        self.hold(has_facet, "the cell across lacks a point of it");
        let not_had = |point| !self.child().cell.vertices.contains(point);
        self.hold(points.get(place as usize).is_some_and(not_had), "the child has the new vertex");
    }
}

/// Tells which cell it is and what is wrong, and ends the run.
fn fail(found: &Found, what: &str) -> ! {
    println!("agree: differs on root {:?}, path {:?}: {what}", found.root, found.path);
    std::process::exit(1);
}

/// Points of d coordinates, two bytes each, low byte first.
fn points(bytes: &[u8], d: usize) -> Vec<Point> {
    let coordinate = |point: &[u8], a: usize| point[2 * a] as u32 + 256 * point[2 * a + 1] as u32;
    let point = |row: &[u8]| std::array::from_fn(|a| if a < d { coordinate(row, a) } else { 0 });
    bytes.chunks_exact(2 * d).map(point).collect()
}

fn answer(across: &Across, out: &mut [u8]) -> Crossed {
    match across {
        Err(refusal) => Crossed::refused(*refusal),
        Ok((code, place, vertex)) => {
            out[..code.len()].copy_from_slice(code);
            Crossed { refusal: DONE, place: *place, length: code.len(), vertex: *vertex }
        }
    }
}

struct Comparison {
    random: Random,
    tally: Tally,
    seen: HashMap<(usize, &'static str), usize>,
}

impl Comparison {
    /// A difference is told with the root, the path, b, i where there is one, and j.
    fn facet(&mut self, facet: &Facet) {
        facet.hold_inside();
        let (kind, across) = facet.expected();
        facet.hold_faces(kind == REFUSED);
        let (Facet { split, b, j, inside, .. }, code) = (facet, &facet.child().code);
        let input: [&[u8]; 5] = [&split.found.root, &split.found.path, &[*b], inside, &[*j]];
        let lent = Lent::new(&mut self.random, split.whole.code.len() + 1);
        let second = |[out]: &mut [Lent; 1]| answer(&across, out.open());
        let library = |[out]: &mut [Lent; 1]| library::cross(code, *j, out.open());
        self.tally.compare(kind, &input, [lent], second, library);
        across.iter().for_each(|(code, place, _)| facet.hold_points(code, *place));
        *self.seen.entry((split.dimension(), kind)).or_default() += 1;
    }

    /// Every facet of both children.
    fn cell(&mut self, found: &Found) {
        let split = Split::new(found);
        for (b, j) in (0..2).flat_map(|b| (0..=split.dimension()).map(move |j| (b, j as u8))) {
            self.facet(&split.facet(b, j));
        }
    }

    fn count(&self, d: usize, kind: &'static str) -> usize {
        self.seen.get(&(d, kind)).copied().unwrap_or(0)
    }

    fn part(&mut self, part: &str) {
        self.tally.part(part);
        for d in DIMENSIONS {
            let counts = KINDS.map(|kind| format!("{kind} {}", self.count(d, kind)));
            println!("agree: dimension {d}: {}", counts.join(", "));
        }
    }

    /// A kind that never came up was not tried.
    fn hold_kinds(&self) {
        for (d, kind) in DIMENSIONS.iter().flat_map(|d| KINDS.map(|kind| (*d, kind))) {
            if self.count(d, kind) == 0 {
                println!("agree: dimension {d}: {kind}: none");
                std::process::exit(1);
            }
        }
    }

    /// Inputs that every run has.
    fn fixed(&mut self) {
        for (d, deepest) in [(2, 8), (3, 7), (4, 5)] {
            for depth in 0..=deepest {
                EveryCell::new(d, depth).cells.iter().for_each(|found| self.cell(found));
            }
        }
        self.part("every facet of the children of shallow cells");
        self.hold_kinds();
    }

    /// As many facets as were asked for, all those of a cell's children together, of every dimension and
    /// depth in turn.
    fn random(&mut self, count: usize) {
        self.seen.clear();
        let enough = self.tally.inputs() + count;
        let has_children = |row: &(usize, usize)| row.1 < greatest_depth(row.0);
        let depths: Vec<_> = every_depth().into_iter().filter(has_children).collect();
        let mut turns = depths.iter().cycle();
        while self.tally.inputs() < enough {
            let (d, depth) = turns.next().expect("there are depths");
            let root = inputs::good_root(&mut self.random, *d);
            let path = inputs::good_path(&mut self.random, *depth);
            self.cell(&Found { root, path });
        }
        self.part("random");
    }
}

fn main() {
    let options = Options::read(1_000_000);
    worked::check(&Finder::new());
    let (random, tally) = (Random::new(options.seed), Tally::new("agree", &KINDS));
    let mut comparison = Comparison { random, tally, seen: HashMap::new() };
    comparison.fixed();
    comparison.random(options.count);
    comparison.tally.close();
}
