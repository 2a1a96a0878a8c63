//! What the programs of examples/ are to write, each answer found by the second program. Compares it with
//! the files that they are held to. `--print NAME` writes one text and compares nothing.

use second::bisection::{roots, Cell, Point};
use second::codes::Code;
use second::compatible::compatible;
use second::crossing::{across, EveryCell};
use second::entries;
use second::finder::{Finder, Found};
use second::points;
use second::queries::{value_at, Asked};
use second::sheets::{Sheets, MARK};
use second::sizes::*;
use second::worked;
use std::fs;

const CORNER: &str = "examples/corner.sheet";
const SEAM: &str = "examples/seam.sheet";
const TOWARD: &str = "target/examples/toward.sheet";
const VOLUME: &str = "target/examples/volume.sheet";

/// The constants of the header, by their numbers.
const NAMES: [&str; 15] = [
    "RMK_DONE",
    "RMK_REFUSED_DIMENSION",
    "RMK_REFUSED_DEPTH",
    "RMK_REFUSED_LENGTH",
    "RMK_REFUSED_PERMUTATION",
    "RMK_REFUSED_ORTHANT",
    "RMK_REFUSED_SIGN",
    "RMK_REFUSED_STEP",
    "RMK_REFUSED_FACE",
    "RMK_REFUSED_ROOT",
    "RMK_REFUSED_DEEPEST",
    "RMK_REFUSED_SHORT",
    "RMK_REFUSED_POINT",
    "RMK_REFUSED_RECORD",
    "RMK_REFUSED_LEAF",
];

fn name(refusal: u8) -> &'static str {
    NAMES[refusal as usize]
}

fn hex(bytes: &[u8]) -> String {
    bytes.iter().map(|byte| format!("{byte:02x}")).collect()
}

fn unhex(text: &str) -> Vec<u8> {
    let pair = |at: usize| u8::from_str_radix(&text[at..at + 2], 16).expect("hex");
    (0..text.len()).step_by(2).map(pair).collect()
}

fn shown(point: &Point, d: usize) -> String {
    format!("({})", point[..d].iter().map(|x| x.to_string()).collect::<Vec<_>>().join(","))
}

fn cell_of(found: &Found) -> Cell {
    Cell::at(&found.root, &found.path)
}

fn code_of(found: &Found) -> Vec<u8> {
    Code::at(&found.root, &found.path).bytes()
}

struct Texts<'a> {
    finder: &'a Finder,
    sheets: Sheets<'a>,
}

impl Texts<'_> {
    /// A code, its cell's vertices and its parent's code; or the refusal.
    fn check_code(&self, code: &str) -> String {
        let found = match self.finder.read(&unhex(code)) {
            Err(refusal) => return format!("code {code}\n{}\n", name(refusal)),
            Ok(found) => found,
        };
        let mut text = format!("code {code}\n");
        for (place, point) in cell_of(&found).vertices.iter().enumerate() {
            text += &format!("vertex {place}: {}\n", shown(point, found.root.len()));
        }
        text + &match found.parent() {
            None => "parent none, it is a root\n".into(),
            Some(parent) => format!("parent {}\n", hex(&code_of(&parent))),
        }
    }

    /// The cells from the first one on, by geometry, and whether the first one comes back.
    fn walk(&self, first: &Found, leaves: usize, keeps: usize, met: &mut Vec<Found>) -> (String, bool) {
        let (mut at, mut leaves, mut keeps, mut text, mut cells) = (first.clone(), leaves, keeps, String::new(), 0);
        loop {
            cells += 1;
            met.push(at.clone());
            text += &format!("{} across {leaves}", hex(&code_of(&at)));
            let (next, place) = match across(&at, leaves as u8) {
                Err(REFUSED_FACE) => return (text + &format!("\na face of the cube, after {cells}\n"), false),
                other => other.expect("a facet of the cell"),
            };
            text += &format!(" to {}\n", shown(&cell_of(&next).vertices[place as usize], first.root.len()));
            let kept = cell_of(&at).vertices[keeps];
            leaves = cell_of(&next).vertices.iter().position(|v| *v == kept).expect("it is in the facet");
            (at, keeps) = (next, place as usize);
            if at == *first {
                return (text + &format!("back at the first cell, after {cells}\n"), true);
            }
        }
    }

    /// The walk, and that it meets all cells of the depth that have what is walked around.
    fn walk_around(&self, code: &str, leaves: usize, keeps: usize) -> String {
        let first = self.finder.read(&unhex(code)).expect("a good code");
        let (d, cell) = (first.root.len(), cell_of(&first));
        let rest = (0..=d).filter(|place| *place != leaves && *place != keeps);
        let middle: Vec<Point> = rest.map(|place| cell.vertices[place]).collect();
        let mut text = "around".to_string();
        middle.iter().for_each(|point| text += &format!(" {}", shown(point, d)));
        let mut met = Vec::new();
        let (walked, back) = self.walk(&first, leaves, keeps, &mut met);
        text += &format!("\n{walked}");
        if !back {
            text += &format!("the other way\n{}", self.walk(&first, keeps, leaves, &mut met).0);
        }
        let has = |found: &&Found| middle.iter().all(|point| cell_of(found).vertices.contains(point));
        let mut all: Vec<Found> = EveryCell::new(d, first.path.len()).cells.iter().filter(has).cloned().collect();
        all.sort();
        met.sort();
        met.dedup();
        assert_eq!(met, all, "the walk around {middle:?} misses a cell");
        text
    }

    /// The leaf's record, its samples the sum of the squares of its coordinates' 64ths.
    fn record(found: &Found) -> (Vec<u8>, String) {
        let square = |x: &u32| (x / 64) * (x / 64);
        let greys = cell_of(found).vertices.iter().map(|v| v.iter().map(square).sum::<u32>() as u16).collect::<Vec<_>>();
        let front = [&MARK[..], &code_of(found)].concat();
        let line = greys.iter().fold(hex(&front), |line, grey| line + &format!(" {grey}"));
        (greys.iter().fold(front, |bytes, grey| [bytes, grey.to_le_bytes().to_vec()].concat()), line + "\n")
    }

    /// Child 0 has vertex 0, which in a root is the origin: the leaves are the path of zeros to the depth, and
    /// from the deepest up what was split off.
    fn made(&self, d: usize, depth: usize) -> (Vec<u8>, String) {
        let (mut sheet, mut text) = (Vec::new(), String::new());
        for root in roots(d) {
            let zeros = |count| vec![0; count];
            let off = (0..depth).rev().map(|zero| [zeros(zero), vec![1]].concat());
            for path in [zeros(depth)].into_iter().chain(off) {
                let (bytes, line) = Self::record(&Found { root: root.clone(), path });
                sheet.extend(bytes);
                text += &line;
            }
        }
        let answer = self.sheets.check(&sheet);
        assert_eq!(answer.refusal, DONE, "the sheet made is not good");
        text += &format!("records {}, bytes {}\n", answer.records, sheet.len());
        (sheet, text)
    }

    fn print_sheet(&self, sheet: &[u8]) -> String {
        let codes = self.sheets.codes(sheet).expect("a good sheet");
        let leaves = self.sheets.leaves(sheet).expect("a good sheet");
        let d = codes[0][0] as usize;
        let mut text = format!("{} leaves of dimension {d}\n", leaves.len());
        for (number, (code, leaf)) in codes.iter().zip(&leaves).enumerate() {
            text += &format!("leaf {number} {}\n", hex(code));
            for (point, sample) in leaf.cell.vertices.iter().zip(&leaf.samples) {
                text += &format!("  {} {sample}\n", shown(point, d));
            }
        }
        text
    }

    fn grey_line(&self, sheet: &[u8], parts: u32, from: &[u32], to: &[u32]) -> String {
        let asked = Asked::new(&self.sheets, sheet);
        let (d, mut text) = (from.len(), String::new());
        for n in 0..=parts {
            let point: Point = std::array::from_fn(|a| if a < d { (from[a] * (parts - n) + to[a] * n) / parts } else { 0 });
            let answer = value_at(&asked.find(&points::bytes(&point, d)));
            text += &match answer.refusal {
                DONE => format!("{} {}\n", shown(&point, d), answer.value),
                refusal => return text + &format!("{} {}\nstatus 1\n", shown(&point, d), name(refusal)),
            };
        }
        text
    }

    fn is_compatible(&self, file: &str, sheet: &[u8]) -> String {
        let answer = compatible(&self.sheets, sheet);
        match answer.refusal {
            DONE => format!("{file}: {}\n", ["not compatible", "compatible"][answer.compatible as usize]),
            refusal => format!("{file}: {} at {}\n", name(refusal), answer.offset),
        }
    }

    /// A refused sheet, of a program that goes no further.
    fn refused_sheet(&self, file: &str, sheet: &[u8]) -> String {
        let answer = self.sheets.check(sheet);
        assert_ne!(answer.refusal, DONE, "the sheet is good");
        format!("{file}: {} at {}\nstatus 1\n", name(answer.refusal), answer.offset)
    }

    /// Each line of the shell and what comes of it.
    fn refused(&self, corner: &[u8]) -> String {
        let codes = "02 05000102 0219010200 0200010200 02000101 0202010204 02018102 02000102";
        let mut text = format!("$ check_code {codes}\n");
        codes.split(' ').for_each(|code| text += &self.check_code(code));
        let five = entries::path_to_code(&[1, 2, 3, 4, 5], &[], &mut [0; 18]).refusal;
        let below = entries::child(&self.finder.read(&code_of(&Found { root: vec![1, 2], path: vec![0; 24] })), 0, &mut [0; 18]);
        text += &format!("status 1\n$ make_sheet 5\nrmk_path_to_code: {}\nstatus 1\n", name(five));
        text += &format!("$ make_sheet 2 25\nrmk_child: {}\nstatus 1\n", name(below.refusal));
        text += &format!("$ grey_line {CORNER} 2 0 0 8192 0\n{}", self.grey_line(corner, 2, &[0, 0], &[8192, 0]));
        text += &format!("$ grey_line {CORNER} 1 0 0 0 9 9 9\n{}", self.grey_line(corner, 1, &[0; 3], &[9; 3]));
        for length in [38, 37, 0] {
            let (file, sheet) = (format!("target/examples/cut{length}.sheet"), &corner[..length]);
            text += &format!("$ print_sheet {file}\n{}", self.refused_sheet(&file, sheet));
            text += &format!("$ grey_line {file} 1 0 0 9 9\n{}", self.refused_sheet(&file, sheet));
            text += &format!("$ is_compatible {file}\n{}status 1\n", self.is_compatible(&file, sheet));
        }
        text
    }

    /// Each file's name and text.
    fn all(&self) -> Vec<(&'static str, String)> {
        let [corner, seam] = [CORNER, SEAM].map(|file| fs::read(file).expect("the sheet is there"));
        let ((toward, made), (volume, made_volume)) = (self.made(2, 4), self.made(3, 4));
        let files = [(CORNER, &corner), (SEAM, &seam), (TOWARD, &toward), (VOLUME, &volume)];
        let starts =
            [("02010102", 0, 1), ("0203020101", 1, 2), ("0300010203", 1, 2), ("0301020381", 0, 2), ("030381028305", 0, 3)];
        vec![
            ("check_code", self.check_code("0202810201")),
            ("walk_around", starts.map(|(code, leaves, keeps)| self.walk_around(code, leaves, keeps)).concat()),
            ("make_sheet", made),
            ("volume", made_volume),
            ("deepest", self.made(2, 24).1),
            ("print_sheet", self.print_sheet(&corner)),
            ("grey_line", self.grey_line(&volume, 8, &[4096, 97, 1003], &[0, 2001, 3003])),
            ("is_compatible", files.map(|(file, sheet)| self.is_compatible(file, sheet)).concat() + "status 1\n"),
            ("refused", self.refused(&corner)),
        ]
    }
}

/// The first line that differs, and both versions of it.
fn hold(text: &str, name: &str) {
    let file = format!("examples/{name}.expected");
    let given = fs::read_to_string(&file).expect("the file is text");
    if text == given {
        return;
    }
    let same = text.lines().zip(given.lines()).take_while(|(a, b)| a == b).count();
    let line = |of: &str| of.lines().nth(same).unwrap_or("nothing more").to_string();
    println!("examples: line {} of {file} differs\nexpected {}\ngiven    {}", same + 1, line(text), line(&given));
    std::process::exit(1);
}

fn main() {
    let finder = Finder::new();
    worked::check(&finder);
    let texts = Texts { finder: &finder, sheets: Sheets::new(&finder) }.all();
    let words: Vec<String> = std::env::args().skip(1).collect();
    if words.first().is_some_and(|word| word == "--print") {
        let asked = texts.iter().find(|(name, _)| words.get(1).is_some_and(|word| word == name));
        return print!("{}", asked.map_or("no such file\n", |(_, text)| text));
    }
    texts.iter().for_each(|(name, text)| hold(text, name));
    println!("no difference; files of examples/ compared: {}", texts.len());
}
