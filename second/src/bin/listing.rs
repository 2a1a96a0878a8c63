//! Compares what the listing program writes with the second program's listing.

use second::finder::Finder;
use second::forests::{bytes, good_sheet, sheet_of_size};
use second::inputs::{self, Options};
use second::listing::{listing, LIMIT};
use second::random::Random;
use second::sheets::Sheets;
use second::sizes::*;
use second::worked;
use std::fs::File;
use std::io::{Read, Write};
use std::process::{Command, Stdio};
use std::time::Duration;

const PROGRAM: &str = "target/bin/sheet_list";
const SHEET: &str = "target/second/listing.sheet";

/// The document's own 24 bytes, and what it says is written of them.
const WORKED: [u8; 24] = [
    0x43, 0x4c, 0x02, 0x00, 0x01, 0x02, 0x0a, 0x00, 0x14, 0x00, 0x32, 0x00, 0x43, 0x4c, 0x02, 0x00, 0x02,
    0x01, 0x0a, 0x00, 0x1e, 0x00, 0x32, 0x00,
];
const WORKED_TEXT: &str = "dim 2\n0 02000102\n1 02000201\nleaves 2\n";

/// What the program writes of a file's bytes.
fn of_file(path: &str) -> String {
    let input = File::open(path).expect("the sheet opens");
    let output = Command::new(PROGRAM).stdin(input).output().expect("the program runs");
    String::from_utf8(output.stdout).expect("its output is text")
}

/// The same, where the sheet comes by a pipe in parts and the output is taken up late.
fn of_parts(sheet: &[u8], part: usize) -> String {
    let mut command = Command::new(PROGRAM);
    let mut child =
        command.stdin(Stdio::piped()).stdout(Stdio::piped()).spawn().expect("the program runs");
    let mut input = child.stdin.take().expect("its input is a pipe");
    for bytes in sheet.chunks(part) {
        input.write_all(bytes).expect("the pipe takes a part");
        std::thread::sleep(Duration::from_micros(200));
    }
    drop(input);
    std::thread::sleep(Duration::from_millis(20));
    let mut text = String::new();
    child.stdout.take().expect("its output is a pipe").read_to_string(&mut text).expect("its output is text");
    child.wait().expect("the program ends");
    text
}

struct Comparison<'a> {
    sheets: Sheets<'a>,
    random: Random,
    compared: usize,
    longest: usize,
}

impl Comparison<'_> {
    fn same(&mut self, what: &str, expected: &str, given: &str) {
        self.compared += 1;
        self.longest = self.longest.max(given.len());
        if expected != given {
            println!("listing differs on {what}\nexpected\n{expected}\ngiven\n{given}");
            std::process::exit(1);
        }
    }

    fn sheet(&mut self, sheet: &[u8]) {
        std::fs::write(SHEET, sheet).expect("the sheet is written");
        let expected = listing(&self.sheets, sheet);
        self.same(&format!("a sheet of {} bytes, kept in {SHEET}", sheet.len()), &expected, &of_file(SHEET));
    }

    /// A sheet by a pipe.
    fn parts(&mut self, sheet: &[u8], part: usize) {
        let expected = listing(&self.sheets, sheet);
        self.same(&format!("{} bytes in parts of {part}", sheet.len()), &expected, &of_parts(sheet, part));
    }

    /// What the document writes out, and the ends of what is listed.
    fn fixed(&mut self) {
        std::fs::write(SHEET, WORKED).expect("the sheet is written");
        self.same("the document's 24 bytes", WORKED_TEXT, &of_file(SHEET));
        std::fs::write(SHEET, &WORKED[..12]).expect("the sheet is written");
        self.same("the first 12 of them", "refused 14 at 12\n", &of_file(SHEET));
        self.same("an empty input", "refused 14 at 0\n", &of_parts(&[], 1));
        self.same("an input that can't be read", "refused 14 at 0\n", &of_file("target"));
        for d in DIMENSIONS {
            let full = bytes(&sheet_of_size(&mut self.random, d, LIMIT, 0));
            self.sheet(&full);
            self.parts(&full, 1000);
            let large = bytes(&sheet_of_size(&mut self.random, d, LIMIT + 1, 0));
            self.sheet(&large);
            self.parts(&large, 4096);
            self.same("more than is listed", "refused 15 at 0\n", &of_parts(&[large, full].concat()[..LIMIT + 9], LIMIT));
        }
        (0..=WORKED.len()).for_each(|end| self.sheet(&WORKED[..end]));
    }

    /// Good sheets of every dimension and depth, and each with a byte changed, cut, or lengthened.
    fn random(&mut self, count: usize) {
        let depths = every_depth();
        for n in 0..count {
            let (d, depth) = depths[n % depths.len()];
            let mut sheet = bytes(&good_sheet(&mut self.random, d, depth));
            self.sheet(&sheet);
            let at = self.random.below(sheet.len());
            match n % 3 {
                0 => sheet[at] = self.random.byte(),
                1 => sheet.truncate(at),
                _ => sheet.extend(inputs::noise(&mut self.random, n % 40)),
            }
            self.sheet(&sheet);
            if n % 16 == 0 {
                self.parts(&sheet, 7);
            }
        }
    }
}

fn main() {
    let options = Options::read(300);
    let finder = Finder::new();
    worked::check(&finder);
    let (sheets, random) = (Sheets::new(&finder), Random::new(options.seed));
    let mut comparison = Comparison { sheets, random, compared: 0, longest: 0 };
    comparison.fixed();
    comparison.random(options.count);
    println!("no difference; listings compared: {}, the longest of {} bytes", comparison.compared, comparison.longest);
}
