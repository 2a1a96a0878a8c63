//! The listing program where its input, its output or its stack fails: what it writes, what it says on
//! standard error, and how it ends.

use second::finder::Finder;
use second::forests::{bytes, sheet_of_size};
use second::listing::{listing, LIMIT};
use second::random::Random;
use second::sheets::Sheets;
use std::fs;
use std::io::Read;
use std::os::unix::process::ExitStatusExt;
use std::process::{Command, ExitStatus, Stdio};

const PROGRAM: &str = "target/bin/sheet_list";
const SHEET: &str = "target/second/faults.sheet";
const OUTPUT: &str = "target/second/faults.out";

/// The line on standard error.
const UNWRITTEN: &str = "sheet_list: the output could not be written whole\n";
/// What is written where nothing can be read.
const NOTHING_READ: &str = "refused 14 at 0\n";

/// More than a pipe holds, so that a writer waits for the reader.
const PIPE: usize = 65_536;

const SIGSEGV: i32 = 11;
const SIGXFSZ: i32 = 25;

/// A stack of so many KiB for the program alone.
const STACK: &str = "ulimit -s KIB; exec";

/// What arrives of the output.
enum Arrives<'a> {
    All(&'a str),
    /// At the front of the listing: some of it and not all.
    Front,
    /// So many bytes, after which the reader leaves.
    Taken(usize),
}
use Arrives::*;

#[derive(PartialEq, Debug)]
enum Ends {
    Status(i32),
    Signal(i32),
}
use Ends::*;

fn end_of(status: ExitStatus) -> Ends {
    status.signal().map_or_else(|| Status(status.code().expect("it ended")), Signal)
}

struct Faults {
    text: String,
    tried: usize,
}

impl Faults {
    /// A line for the shell, in which $0 is the program, $1 the sheet and $2 a file for output.
    fn holds(&mut self, name: &str, line: &str, arrives: Arrives, says: &str, ends: Ends) {
        let _none = fs::remove_file(OUTPUT);
        let mut shell = Command::new("sh");
        shell.args(["-c", &format!("ulimit -c 0; {line}"), PROGRAM, SHEET, OUTPUT]);
        let mut child =
            shell.stdin(Stdio::null()).stdout(Stdio::piped()).stderr(Stdio::piped()).spawn().expect("a shell runs");
        let mut reader = child.stdout.take().expect("its output is a pipe");
        let mut given = Vec::new();
        match arrives {
            Taken(count) => reader.by_ref().take(count as u64).read_to_end(&mut given),
            _ => reader.read_to_end(&mut given),
        }
        .expect("its output is read");
        drop(reader);
        let mut said = String::new();
        child.stderr.take().expect("a pipe").read_to_string(&mut said).expect("what it says is text");
        let end = end_of(child.wait().expect("it ends"));
        given.extend(fs::read(OUTPUT).unwrap_or_default());
        let given = String::from_utf8(given).expect("its output is text");
        let arrived = match arrives {
            All(expected) => given == expected,
            Front => !given.is_empty() && given.len() < self.text.len() && self.text.starts_with(&given),
            Taken(count) => given == self.text[..count],
        };
        if !arrived || said != says || end != ends {
            println!("faults: {name}: `{line}`");
            println!("output {} ({} bytes)", if arrived { "as expected" } else { "differs" }, given.len());
            println!("expected {ends:?} and on standard error {says:?}\ngiven    {end:?} and {said:?}");
            std::process::exit(1);
        }
        self.tried += 1;
    }

    fn outputs(&mut self) {
        let exec = r#"exec "$0" < "$1""#;
        let failed = [
            ("a full device", "> /dev/full"),
            ("a closed output", ">&-"),
            ("an output that is open for reading alone", "1< \"$1\""),
        ];
        for (name, output) in failed {
            self.holds(name, &format!("{exec} {output}"), All(""), UNWRITTEN, Status(0));
        }
        self.holds("no output and no standard error", &format!("{exec} >&- 2>&-"), All(""), "", Status(0));
        self.holds("two full devices", &format!("{exec} > /dev/full 2> /dev/full"), All(""), "", Status(0));
        let (ignored, limit) = ("trap '' PIPE XFSZ;", "ulimit -f 8;");
        let usual = r#"exec env --default-signal=PIPE,XFSZ "$0" < "$1""#;
        // The program's start, which is the toolchain's, ignores SIGPIPE.
        for count in [0, 1, 5000] {
            self.holds("a reader that leaves", usual, Taken(count), UNWRITTEN, Status(0));
            self.holds("the same, SIGPIPE ignored", &format!("{ignored} {exec}"), Taken(count), UNWRITTEN, Status(0));
        }
        let file = r#"> "$2""#;
        self.holds("a file's limit", &format!("{limit} {usual} {file}"), Front, "", Signal(SIGXFSZ));
        let line = format!("{limit} {ignored} {exec} {file}");
        self.holds("the same, SIGXFSZ ignored", &line, Front, UNWRITTEN, Status(0));
    }

    fn inputs(&mut self) {
        let failed = [
            ("a closed input", "<&-"),
            ("a directory", "< target"),
            ("an input that is open for writing alone", "0> \"$2\""),
        ];
        for (name, input) in failed {
            self.holds(name, &format!(r#"exec "$0" {input}"#), All(NOTHING_READ), "", Status(0));
        }
        self.holds("no input and no output", r#"exec "$0" <&- >&-"#, All(""), UNWRITTEN, Status(0));
    }

    fn stacks(&mut self) {
        let text = self.text.clone();
        let line = |kib: &str| STACK.replace("KIB", kib) + r#" "$0" < "$1""#;
        self.holds("a stack of 256 KiB", &line("256"), All(&text), "", Status(0));
        let piped = format!(r#"cat "$1" | ( {} )"#, line("256").replace(r#"< "$1""#, ""));
        self.holds("the same, and the sheet by a pipe", &piped, All(&text), "", Status(0));
        self.holds("a stack of 128 KiB", &line("128"), All(""), "", Signal(SIGSEGV));
    }
}

fn main() {
    let finder = Finder::new();
    let sheet = bytes(&sheet_of_size(&mut Random::new(1), 2, LIMIT, 0));
    fs::write(SHEET, &sheet).expect("the sheet is written");
    let text = listing(&Sheets::new(&finder), &sheet);
    assert!(text.len() > PIPE + 5000, "a pipe could hold the listing");
    let mut faults = Faults { text, tried: 0 };
    let whole = faults.text.clone();
    faults.holds("no fault", r#"exec "$0" < "$1""#, All(&whole), "", Status(0));
    faults.inputs();
    faults.outputs();
    faults.stacks();
    println!("no difference; faults tried: {}", faults.tried);
}
