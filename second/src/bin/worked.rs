//! The worked cases of document 01 that stand outside its proved set, some for each slip, and slopes: the
//! text that the program `worked` is to write, each answer found by the second program. Compares it with what
//! the program writes and with the file that it is held to. `--print` writes the text and compares nothing.

use second::compatible::compatible;
use second::crossing;
use second::entries;
use second::finder::Finder;
use second::linear;
use second::listing::{listing, LIMIT};
use second::queries::{leaf_at, slope_at, value_at, Asked};
use second::sheets::Sheets;
use second::sizes::*;
use second::worked;
use std::fs;
use std::process::Command;

const PROGRAM: &str = "target/bin/worked";
const HELD_TO: &str = "crates/worked/stdout";

/// The sheet of "The listing program".
const SHEET: [u8; 24] = [
    0x43, 0x4c, 0x02, 0x00, 0x01, 0x02, 0x0a, 0x00, 0x14, 0x00, 0x32, 0x00, //
    0x43, 0x4c, 0x02, 0x00, 0x02, 0x01, 0x0a, 0x00, 0x1e, 0x00, 0x32, 0x00,
];

/// A sheet that is not compatible: beside a whole root stands a cell of depth 2.
const CORNER: &str = "examples/corner.sheet";

struct Cases<'a> {
    finder: &'a Finder,
    sheets: Sheets<'a>,
    text: String,
}

fn hex(bytes: &[u8]) -> String {
    bytes.iter().map(|byte| format!("{byte:02x}")).collect()
}

fn digits(bytes: &[u8]) -> String {
    bytes.iter().map(|byte| byte.to_string()).collect()
}

/// Numbers of two bytes each, the low byte first.
fn pairs(bytes: &[u8]) -> String {
    let numbers = bytes.chunks(2).map(|pair| u16::from_le_bytes([pair[0], pair[1]]).to_string());
    numbers.collect::<Vec<_>>().join(" ")
}

/// A refusal's words, or those of an answer.
fn told(refusal: u8, answer: String) -> String {
    if refusal == DONE { answer } else { format!("refused {refusal}") }
}

/// The same of a sheet.
fn told_at(refusal: u8, offset: usize, answer: String) -> String {
    if refusal == DONE { answer } else { format!("refused {refusal} at {offset}") }
}

impl Cases<'_> {
    fn line(&mut self, case: &str, answer: String) {
        self.text += &format!("{case}: {answer}\n");
    }

    fn check(&mut self, case: &str, code: &[u8]) {
        let refusal = entries::code_check(&self.finder.read(code));
        self.line(&format!("{case}: code {}", hex(code)), told(refusal, "good".into()));
    }

    fn path(&mut self, case: &str, root: &[u8], path: &[u8]) {
        let mut code = [0; 18];
        let answer = entries::path_to_code(root, path, &mut code);
        let asked = format!("{case}: root {} path {}", digits(root), digits(path));
        self.line(&asked, told(answer.refusal, hex(&code[..answer.length])));
    }

    fn child(&mut self, case: &str, code: &[u8], which: u8) {
        let mut out = [0; 18];
        let answer = entries::child(&self.finder.read(code), which, &mut out);
        let asked = format!("{case}: child {which} of {}", hex(code));
        self.line(&asked, told(answer.refusal, hex(&out[..answer.length])));
    }

    fn cross(&mut self, case: &str, code: &[u8], facet: u8) {
        let mut out = [0; 18];
        let answer = crossing::cross(&self.finder.read(code), facet, &mut out);
        let [x1, x2, x3, x4] = answer.vertex;
        let new = format!("place {}, vertex {x1} {x2} {x3} {x4}", answer.place);
        let across = format!("{new}, of {}", hex(&out[..answer.length]));
        self.line(&format!("{case}: {} across {facet}", hex(code)), told(answer.refusal, across));
    }

    fn sheet(&mut self, case: &str, sheet: &[u8]) {
        let answer = self.sheets.check(sheet);
        self.line(case, told_at(answer.refusal, answer.offset, format!("records {}", answer.records)));
    }

    fn compatible(&mut self, case: &str, sheet: &[u8]) {
        let answer = compatible(&self.sheets, sheet);
        let yes = if answer.compatible == 1 { "yes" } else { "no" };
        self.line(case, told_at(answer.refusal, answer.offset, yes.into()));
    }

    fn leaf(&mut self, x: u16, y: u16) {
        let found = Asked::new(&self.sheets, &SHEET).find(&point(&[x, y]));
        let mut weights = [0; 6];
        let answer = leaf_at(&found, &mut weights);
        let leaf = format!("record {} weights {}", answer.number, pairs(&weights));
        self.line(&format!("leaf at {x} {y}"), told(answer.refusal, leaf));
    }

    fn value(&mut self, x: u16, y: u16) {
        let answer = value_at(&Asked::new(&self.sheets, &SHEET).find(&point(&[x, y])));
        self.line(&format!("value at {x} {y}"), told(answer.refusal, answer.value.to_string()));
    }

    fn slope(&mut self, case: &str, sheet: &[u8], at: &[u16]) {
        let point = point(at);
        let answer = slope_at(&Asked::new(&self.sheets, sheet).find(&point));
        let bits = answer.bits().map(|number| format!("{number:016x}")).join(" ");
        self.line(&format!("{case}: slope at {}", pairs(&point)), told(answer.refusal, bits));
    }

    /// In the leaf at a point of a good sheet, whose depth is the case.
    fn slope_in_leaf(&mut self, sheet: &[u8], at: &[u16]) {
        let number = leaf_at(&Asked::new(&self.sheets, sheet).find(&point(at)), &mut [0; 10]).number;
        let leaves = self.sheets.leaves(sheet).expect("the sheet is good");
        let case = format!("dimension {}, depth {}", at.len(), leaves[number].cell.depth);
        self.slope(&case, sheet, at);
    }

    fn listing(&mut self, sheet: &[u8]) {
        self.text += &format!("listing of {} bytes:\n{}", sheet.len(), listing(&self.sheets, sheet));
    }

    fn sheets(&mut self) {
        self.sheet("empty sheet", &[]);
        self.sheet("sheet of 24 bytes", &SHEET);
        self.sheet("its first 12 bytes", &SHEET[..12]);
        self.compatible("compatible, of 24 bytes", &SHEET);
        self.compatible("compatible, of its first 12 bytes", &SHEET[..12]);
        self.compatible("compatible, of another sheet", &fs::read(CORNER).expect("the sheet is there"));
    }

    fn depths(&mut self) {
        let corner = |depth: u8| [&[2, depth, 1, 2][..], &vec![0; depth as usize / 2]].concat();
        let steps = |depth: u8| (0..depth).map(|n| n % 2).collect::<Vec<u8>>();
        for depth in [24, 25] {
            self.check(&format!("depth {depth}"), &corner(depth));
        }
        for depth in [24, 25] {
            self.path(&format!("depth {depth}"), &[1, 2], &steps(depth));
        }
        for (depth, which) in [(23, 1), (24, 0), (24, 1)] {
            self.child(&format!("depth {depth}"), &corner(depth), which);
        }
    }

    fn coordinates(&mut self) {
        let corners = [(4096, 4096), (4097, 4096), (4096, 4097)];
        corners.iter().for_each(|(x, y)| self.leaf(*x, *y));
        corners.iter().for_each(|(x, y)| self.value(*x, *y));
    }

    fn slopes(&mut self) {
        for at in [[1024, 512], [512, 1024], [4097, 512]] {
            self.slope("sheet of 24 bytes", &SHEET, &at);
        }
        let corner = fs::read(CORNER).expect("the sheet is there");
        for at in [[1024, 512], [3072, 512], [3584, 2048]] {
            self.slope_in_leaf(&corner, &at);
        }
        let three = linear::sheet(&[-300, 200, 52]);
        for at in [[2560, 1536, 512], [3584, 2048, 1024], [3584, 3072, 2048], [1024, 2048, 3072]] {
            self.slope_in_leaf(&three, &at);
        }
        let four = linear::sheet(&[-300, 200, 0, -64]);
        for at in [
            [1792, 1280, 768, 256],
            [3840, 1536, 1024, 512],
            [3840, 3584, 1280, 768],
            [3840, 3584, 3328, 1280],
            [512, 1024, 1536, 2048],
        ] {
            self.slope_in_leaf(&four, &at);
        }
    }

    fn listings(&mut self) {
        self.listing(&SHEET);
        self.listing(&SHEET[..12]);
        self.listing(&[0; LIMIT]);
        self.listing(&[0; LIMIT + 1]);
    }

    fn slips(&mut self) {
        self.cross("slip 1, same place", &[2, 1, 1, 2], 0);
        self.cross("slip 1, same place", &[2, 1, 2, 0x81], 1);
        for code in [[2, 1, 0x81, 2], [2, 0, 1, 0x82], [2, 1, 1, 0x82]] {
            self.check("slip 2, any signs", &code);
        }
        self.path("slip 3, all turned", &[1, 2, 3], &[0, 1]);
        self.path("slip 3, all turned", &[1, 2, 3, 4], &[0, 0, 1]);
        self.cross("slip 4, low place", &[2, 0, 1, 2], 0);
        self.cross("slip 4, low place", &[2, 4, 1, 0x82, 1, 2], 0);
        self.cross("slip 4, low place", &[2, 4, 1, 0x82, 1, 2], 2);
        self.cross("slip 5, last box", &[2, 6, 2, 1, 1, 0, 0], 2);
        self.cross("slip 5, last box", &[2, 24, 2, 1, 1, 0, 0, 0, 0, 0, 0, 0, 0, 0, 0, 0], 2);
    }
}

fn point(coordinates: &[u16]) -> Vec<u8> {
    coordinates.iter().flat_map(|x| x.to_le_bytes()).collect()
}

/// The first line that differs, and both versions of it.
fn hold(text: &str, other: &str, name: &str) {
    if text == other {
        return;
    }
    let same = text.lines().zip(other.lines()).take_while(|(a, b)| a == b).count();
    let line = |of: &str| of.lines().nth(same).unwrap_or("nothing more").to_string();
    println!("worked: line {} of {name} differs\nexpected {}\ngiven    {}", same + 1, line(text), line(other));
    std::process::exit(1);
}

fn main() {
    let finder = Finder::new();
    worked::check(&finder);
    let mut cases = Cases { finder: &finder, sheets: Sheets::new(&finder), text: String::new() };
    cases.sheets();
    cases.depths();
    cases.coordinates();
    cases.slopes();
    cases.listings();
    cases.slips();
    let text = cases.text;
    if std::env::args().nth(1).as_deref() == Some("--print") {
        return print!("{text}");
    }
    hold(&text, &fs::read_to_string(HELD_TO).expect("the file is text"), HELD_TO);
    let output = Command::new(PROGRAM).output().expect("the program runs");
    hold(&text, &String::from_utf8(output.stdout).expect("its output is text"), PROGRAM);
    println!("no difference; worked cases compared: {} lines", text.lines().count());
}
