//! Very many calls, each judged by what costs little: the contract's own words for any answer, the cells past
//! the answer, entries that undo each other, the bisection of a cell's points, weights that give the point, a
//! slope that leads from sample to sample. One call in so many is judged by the second program too.

use crate::calls::{library, told, Answer, Entry, Given, ENTRIES};
use crate::judge::{keeps_contract, Judge};
use crate::sheets::{self, some_sheet, KINDS};
use second::forests::damaged;
use second::inputs;
use second::random::Random;
use second::{points, sizes::*};

const ROOM: usize = 64;
const LONGEST_CODE: usize = 18;

/// The second program judges one call in so many. A sheet takes it longer, but there are fewer.
const PART: u64 = 997;
const PART_SHEETS: u64 = 97;

/// Sheets at hand, and rounds after which one of them gives way to a new one.
const SHEETS: usize = 96;
const RENEWED: u64 = 64;

/// Rounds after which the walk from cell to cell begins elsewhere.
const WALK: u64 = 64;

/// Codes and outputs in fixed rooms, so that they are moved at no cost.
#[derive(Clone, Copy, PartialEq)]
pub struct Bytes {
    room: [u8; ROOM],
    length: usize,
}

impl Bytes {
    fn of(bytes: &[u8]) -> Bytes {
        let mut room = [0; ROOM];
        room[..bytes.len()].copy_from_slice(bytes);
        Bytes { room, length: bytes.len() }
    }

    fn get(&self) -> &[u8] {
        &self.room[..self.length]
    }
}

pub struct Turn<'a> {
    judge: &'a mut Judge,
    random: Random,
    out: [u8; ROOM],
    other: [u8; ROOM],
    sheets: Vec<(usize, Vec<u8>)>,
    depths: Vec<(usize, usize)>,
    pub counts: [u64; ENTRIES.len()],
    pub made: u64,
    pub judged: u64,
}

fn fail(given: &Given, lent: [usize; 2], why: &str) -> ! {
    println!("{}: {why}", told(given, lent));
    std::process::exit(1);
}

fn of_code(entry: Entry, code: &[u8], which: u8) -> Given<'_> {
    Given { entry, one: code, two: &[], which }
}

impl<'a> Turn<'a> {
    pub fn new(judge: &'a mut Judge, mut random: Random) -> Turn<'a> {
        let sheet = |n: usize| (2 + n % 3, some_sheet(&mut random, 2 + n % 3, n / 3 % KINDS));
        let sheets = (0..SHEETS).map(sheet).collect();
        let (out, other) = ([0; ROOM], [0; ROOM]);
        let (counts, depths) = ([0; ENTRIES.len()], every_depth());
        Turn { judge, random, out, other, sheets, depths, counts, made: 0, judged: 0 }
    }

    /// One call with so much lent. It leaves the outputs in place.
    fn call(&mut self, given: &Given, lent: [usize; 2]) -> Answer {
        self.made += 1;
        self.counts[given.entry as usize] += 1;
        let fill = self.made as u8;
        (self.out, self.other) = ([fill; ROOM], [!fill; ROOM]);
        let answer = library(given, &mut self.out[..lent[0]], &mut self.other[..lent[1]]);
        if !keeps_contract(given, &answer, lent) {
            fail(given, lent, &format!("{answer:?} is not an answer of its contract"));
        }
        let written = answer.written(given.entry);
        let kept = |cells: &[u8], fill: u8| cells.iter().fold(0, |all, cell| all | (cell ^ fill));
        if kept(&self.out[written[0]..], fill) | kept(&self.other[written[1]..], !fill) != 0 {
            fail(given, lent, "a cell past the answer has changed");
        }
        let part = if given.entry.reads_a_sheet() { PART_SHEETS } else { PART };
        if self.made % part == 0 {
            self.judge(given, lent, answer, fill);
        }
        answer
    }

    fn judge(&mut self, given: &Given, lent: [usize; 2], answer: Answer, fill: u8) {
        self.judged += 1;
        let (mut out, mut other) = ([fill; ROOM], [!fill; ROOM]);
        let expected = self.judge.answer(given, &mut out[..lent[0]], &mut other[..lent[1]]);
        if expected != answer {
            fail(given, lent, &format!("{answer:?}, the second program says {expected:?}"));
        }
        if (out, other) != (self.out, self.other) {
            fail(given, lent, "the second program leaves other cells");
        }
    }

    /// The answer with all room lent, and what was written.
    fn roomy(&mut self, given: &Given) -> (Answer, Bytes) {
        let lent = if given.entry.outputs() == 0 { 0 } else { ROOM };
        let answer = self.call(given, [lent, if given.entry.outputs() == 2 { ROOM } else { 0 }]);
        (answer, Bytes { room: self.out, length: answer.written(given.entry)[0] })
    }

    /// The answer where the outputs are just long enough is the same; where one is shorter it is a refusal.
    fn tight(&mut self, given: &Given, roomy: &Answer) {
        let written = roomy.written(given.entry);
        let just = self.call(given, written);
        if just != *roomy {
            fail(given, written, "another answer where the outputs are just long enough");
        }
        if roomy.refusal == DONE && written[0] > 0 {
            let lent = [self.random.below(written[0]), written[1]];
            if self.call(given, lent).refusal != REFUSED_SHORT {
                fail(given, lent, "no refusal of a short output");
            }
        }
    }

    /// Crossing back gives the code, the facet and the vertex that it lacked; the two cells share all points
    /// but one; and the new vertex is the point at its place.
    fn crossing(&mut self, code: &Bytes, facet: u8, points: &Bytes) -> Option<Bytes> {
        let given = of_code(Entry::Cross, code.get(), facet);
        let (answer, beyond) = self.roomy(&given);
        if answer.refusal != DONE {
            let allowed = answer.refusal == REFUSED_FACE || answer.refusal == REFUSED_STEP;
            return if allowed { None } else { fail(&given, [ROOM, 0], "a good code is refused") };
        }
        let place = answer.numbers[1] as u8;
        let (back, own) = self.roomy(&of_code(Entry::Cross, beyond.get(), place));
        if back.refusal != DONE || own.get() != code.get() || back.numbers[1] != facet as u64 {
            fail(&given, [ROOM, 0], "crossing back does not lead back");
        }
        let (_, others) = self.roomy(&of_code(Entry::Vertices, beyond.get(), 0));
        let d = code.room[0] as usize;
        if !share_but_one(points, facet, &others, place, d) {
            fail(&given, [ROOM, 0], "the cell across has not the facet's vertices");
        }
        if answer.axes != coordinates(&others, place, d) {
            fail(&given, [ROOM, 0], &format!("the new vertex is not at {:?}", answer.axes));
        }
        if back.axes != coordinates(points, facet, d) {
            fail(&given, [ROOM, 0], &format!("crossing back does not land at {:?}", back.axes));
        }
        Some(beyond)
    }

    /// A child's parent is the cell, and its points are those that the bisection gives.
    fn halving(&mut self, code: &Bytes, which: u8, points: &Bytes) -> Option<Bytes> {
        let given = of_code(Entry::Child, code.get(), which);
        let (answer, child) = self.roomy(&given);
        let (d, depth) = (code.room[0] as usize, code.room[1] as usize);
        if answer.refusal != DONE {
            let deepest = answer.refusal == REFUSED_DEEPEST && depth == greatest_depth(d);
            return if deepest { None } else { fail(&given, [ROOM, 0], "a child is refused") };
        }
        let (_, parent) = self.roomy(&of_code(Entry::Parent, child.get(), 0));
        let (_, halved) = self.roomy(&of_code(Entry::Vertices, child.get(), 0));
        if parent.get() != code.get() || !bisects(points, which, &halved, d, d - depth % d) {
            fail(&given, [ROOM, 0], "a child's parent or points are not the cell's");
        }
        Some(child)
    }

    /// A cell is one of its parent's children.
    fn parent(&mut self, code: &Bytes) -> Option<Bytes> {
        let given = of_code(Entry::Parent, code.get(), 0);
        let (answer, parent) = self.roomy(&given);
        if answer.refusal != DONE {
            let root = answer.refusal == REFUSED_ROOT && code.room[1] == 0;
            return if root { None } else { fail(&given, [ROOM, 0], "a parent is refused") };
        }
        let mut is_child = |which| {
            let (_, child) = self.roomy(&of_code(Entry::Child, parent.get(), which));
            child.get() == code.get()
        };
        if !is_child(0) && !is_child(1) {
            fail(&given, [ROOM, 0], "a cell is no child of its parent");
        }
        Some(parent)
    }

    /// Path and code undo each other.
    fn path(&mut self, code: &Bytes) {
        let given = of_code(Entry::CodeToPath, code.get(), 0);
        let (answer, root) = self.roomy(&given);
        let path = Bytes { room: self.other, length: answer.numbers[1] as usize };
        let back = Given { entry: Entry::PathToCode, one: root.get(), two: path.get(), which: 0 };
        let (_, again) = self.roomy(&back);
        if answer.refusal != DONE || again.get() != code.get() {
            fail(&given, [ROOM, ROOM], "path and code do not undo each other");
        }
        let mut bad = path;
        let at = self.random.below(ROOM);
        bad.room[at] ^= self.random.byte();
        let (answer, _) = self.roomy(&Given { two: bad.get(), ..back });
        let expected = if bad.get().iter().all(|step| *step < 2) { DONE } else { REFUSED_STEP };
        if answer.refusal != expected {
            fail(&Given { two: bad.get(), ..back }, [ROOM, 0], "a path's refusal is another");
        }
    }

    /// All entries refuse what the code check refuses, by the same number.
    fn bad_code(&mut self, code: &Bytes) {
        let mut bad = *code;
        let at = self.random.below(bad.length);
        match self.random.below(8) {
            0 => bad.length = at,
            1 => bad.length += 1 + at,
            2 => bad.room[at] ^= 1 << self.random.below(8),
            _ => bad.room[at] = self.random.byte() & 0x87,
        }
        let (check, _) = self.roomy(&of_code(Entry::CodeCheck, bad.get(), 0));
        let which = self.random.below(8) as u8;
        const OTHERS: [Entry; 5] =
            [Entry::CodeToPath, Entry::Vertices, Entry::Child, Entry::Parent, Entry::Cross];
        for entry in OTHERS {
            let given = of_code(entry, bad.get(), which);
            let (answer, _) = self.roomy(&given);
            if check.refusal != DONE && answer.refusal != check.refusal {
                fail(&given, [ROOM, ROOM], "the code check refuses otherwise");
            }
        }
    }

    /// All of one good code; gives a cell to go on from.
    fn good_code(&mut self, code: &Bytes) -> Bytes {
        let d = code.room[0] as usize;
        let given = of_code(Entry::CodeCheck, code.get(), 0);
        if self.roomy(&given).0.refusal != DONE {
            fail(&given, [0, 0], "a good code is refused");
        }
        let (_, points) = self.roomy(&of_code(Entry::Vertices, code.get(), 0));
        let (facet, which) = (self.random.below(d + 1) as u8, self.random.below(2) as u8);
        let beyond = self.crossing(code, facet, &points);
        let child = self.halving(code, which, &points);
        let parent = self.parent(code);
        self.path(code);
        let ways = [beyond, child, parent, beyond];
        ways[self.random.below(4)].unwrap_or(*code)
    }

    /// One entry of a code with outputs that are just long enough or shorter.
    fn short(&mut self, code: &Bytes) {
        const ENTRIES: [Entry; 5] =
            [Entry::CodeToPath, Entry::Vertices, Entry::Child, Entry::Parent, Entry::Cross];
        let which = self.random.below(4) as u8;
        let given = of_code(self.random.one_of(&ENTRIES), code.get(), which);
        let roomy = self.roomy(&given).0;
        self.tight(&given, &roomy);
    }

    pub fn codes(&mut self, calls: u64) {
        let (enough, mut code) = (self.made + calls, Bytes::of(&[2, 0, 1, 2]));
        for n in 0.. {
            if self.made >= enough {
                break;
            }
            if n % WALK == 0 {
                let (d, depth) = self.random.one_of(&self.depths);
                code = Bytes::of(&inputs::good_code(&mut self.random, d, depth));
            }
            let next = self.good_code(&code);
            self.bad_code(&code);
            self.short(&code);
            code = next;
        }
    }

    /// All entries of a sheet, twice: they agree with each other, and with themselves.
    fn sheet(&mut self, sheet: &[u8], point: &[u8]) {
        let given = |entry| Given { entry, one: sheet, two: point, which: 0 };
        let alone = |entry| Given { entry, one: sheet, two: &[], which: 0 };
        let (check, _) = self.roomy(&alone(Entry::SheetCheck));
        let (leaf, weights) = self.roomy(&given(Entry::LeafAt));
        let (value, _) = self.roomy(&given(Entry::ValueAt));
        let (slope, _) = self.roomy(&given(Entry::SlopeAt));
        let (compatible, _) = self.roomy(&alone(Entry::Compatible));
        let refused = |a: &Answer| (a.refusal, a.offset);
        let apart = [value, slope].iter().any(|a| refused(a) != refused(&leaf));
        let unlike = check.refusal != DONE && refused(&leaf) != refused(&check);
        if apart || unlike || refused(&compatible) != refused(&check) {
            fail(&given(Entry::LeafAt), [ROOM, 0], "entries of one sheet refuse otherwise");
        }
        if leaf.refusal == DONE {
            let given = given(Entry::LeafAt);
            let found = self.leaf(&given, &check, &leaf);
            if !found.has_weights(&weights, point, &value) || !found.has_slope(&slope) {
                fail(&given, [ROOM, 0], "weights, value or slope are not the point's");
            }
        }
        let again = [
            (alone(Entry::SheetCheck), check),
            (given(Entry::ValueAt), value),
            (given(Entry::SlopeAt), slope),
            (alone(Entry::Compatible), compatible),
        ];
        for (given, first) in again {
            if self.roomy(&given).0 != first {
                fail(&given, [0, 0], "a second call answers otherwise");
            }
        }
        self.tight(&given(Entry::LeafAt), &leaf);
    }

    /// The leaf that a leaf query found.
    fn leaf(&mut self, given: &Given, check: &Answer, found: &Answer) -> Leaf {
        let number = found.numbers[1];
        if number >= check.numbers[0] {
            fail(given, [ROOM, 0], "no record of the sheet");
        }
        let (code, samples) = sheets::record(given.one, number as usize);
        let (d, boxes) = (code[0] as usize, code[1] as usize / code[0] as usize);
        let (_, points) = self.roomy(&of_code(Entry::Vertices, code, 0));
        let (points, samples) = (two_bytes(points.get()), two_bytes(samples));
        Leaf { d, side: (CUBE_SIDE >> boxes) as u64, points, samples }
    }

    pub fn all_sheets(&mut self, rounds: u64) {
        for n in 0..rounds {
            if n % RENEWED == 0 {
                let (at, d) = (self.random.below(self.sheets.len()), 2 + self.random.below(3));
                let kind = self.random.below(KINDS);
                self.sheets[at] = (d, some_sheet(&mut self.random, d, kind));
            }
            let (d, sheet) = self.sheets[self.random.below(self.sheets.len())].clone();
            let mut point = points::bytes(&points::anywhere(&mut self.random, d), d);
            if n % 16 == 0 {
                let at = self.random.below(point.len());
                point[at] = self.random.byte();
            }
            if n % 3 == 0 {
                let bad = damaged(&mut self.random, &sheet, n as usize / 3);
                self.sheet(&bad, &point);
            } else {
                self.sheet(&sheet, &point);
            }
        }
    }
}

/// A leaf's points and samples in vertex order, and the side of its box.
struct Leaf {
    d: usize,
    side: u64,
    points: Vec<u64>,
    samples: Vec<u64>,
}

impl Leaf {
    /// The weights give the point, and the value with the samples.
    fn has_weights(&self, weights: &Bytes, point: &[u8], value: &Answer) -> bool {
        let (weights, point, d) = (two_bytes(weights.get()), two_bytes(point), self.d);
        let along = |a: usize| (0..=d).map(|i| weights[i] * self.points[i * d + a]).sum::<u64>();
        let there = (0..d).all(|a| along(a) == self.side * point[a]);
        let grey: u64 = weights.iter().zip(&self.samples).map(|(w, sample)| w * sample).sum();
        let exact = (grey as f64 / self.side as f64).to_bits() == value.numbers[0];
        there && weights.iter().sum::<u64>() == self.side && exact
    }

    /// The slope leads from the sample at vertex 0 to each other one. No other slope does.
    fn has_slope(&self, answer: &Answer) -> bool {
        let (slope, d) = (answer.axes.map(f64::from_bits), self.d);
        let rise = |i: usize| self.samples[i] as f64 - self.samples[0] as f64;
        let way = |i: usize, a: usize| self.points[i * d + a] as f64 - self.points[a] as f64;
        (1..=d).all(|i| (0..d).map(|a| slope[a] * way(i, a)).sum::<f64>() == rise(i))
    }
}

fn two_bytes(bytes: &[u8]) -> Vec<u64> {
    bytes.chunks(2).map(|two| two[0] as u64 + 256 * two[1] as u64).collect()
}

fn vertex(points: &Bytes, place: usize, d: usize) -> &[u8] {
    &points.get()[2 * d * place..2 * d * (place + 1)]
}

/// A vertex as a crossing answers it: zeros on the axes that the dimension lacks.
fn coordinates(points: &Bytes, place: u8, d: usize) -> [u64; MOST_AXES] {
    let v = vertex(points, place as usize, d);
    std::array::from_fn(|a| if a < d { v[2 * a] as u64 + 256 * v[2 * a + 1] as u64 } else { 0 })
}

/// All points but one of each are those of the other, in any order.
fn share_but_one(points: &Bytes, facet: u8, others: &Bytes, place: u8, d: usize) -> bool {
    let of_facet = |i: &usize| *i != facet as usize;
    let there =
        |i| (0..=d).any(|j| j != place as usize && vertex(points, i, d) == vertex(others, j, d));
    points.length == others.length
        && (0..=d).filter(of_facet).all(there)
        && vertex(points, facet as usize, d) != vertex(others, place as usize, d)
}

/// A child's points: (v0 .. v(k-1), m, v(k+1) .. vd) or (v1 .. vk, m, v(k+1) .. vd).
fn bisects(points: &Bytes, which: u8, child: &Bytes, d: usize, k: usize) -> bool {
    let coordinate = |points: &Bytes, place: usize, a: usize| {
        let v = vertex(points, place, d);
        v[2 * a] as u32 + 256 * v[2 * a + 1] as u32
    };
    let middle = |a| (coordinate(points, 0, a) + coordinate(points, k, a)) / 2;
    let from = |place: usize| if place < k { place + which as usize } else { place };
    let other = |place| vertex(child, place, d) == vertex(points, from(place), d);
    child.length == points.length
        && (0..d).all(|a| coordinate(child, k, a) == middle(a))
        && (0..=d).filter(|place| *place != k).all(other)
}

// The longest code fits a room with what lengthens it.
const _: () = assert!(2 * LONGEST_CODE + 1 <= ROOM);
