//! Every entry behind one form of call, so that each part of the hard use reaches all twelve alike.

use second::answers::*;

#[derive(Clone, Copy, PartialEq, Debug)]
pub enum Entry {
    CodeCheck,
    PathToCode,
    CodeToPath,
    Vertices,
    Child,
    Parent,
    Cross,
    SheetCheck,
    LeafAt,
    ValueAt,
    SlopeAt,
    Compatible,
}

use Entry::*;

/// In the order of the numbers that they stand for, with their names in the header.
pub const ENTRIES: [(Entry, &str); 12] = [
    (CodeCheck, "rmk_code_check"),
    (PathToCode, "rmk_path_to_code"),
    (CodeToPath, "rmk_code_to_path"),
    (Vertices, "rmk_vertices"),
    (Child, "rmk_child"),
    (Parent, "rmk_parent"),
    (Cross, "rmk_cross"),
    (SheetCheck, "rmk_sheet_check"),
    (LeafAt, "rmk_leaf_at"),
    (ValueAt, "rmk_value_at"),
    (SlopeAt, "rmk_slope_at"),
    (Compatible, "rmk_compatible"),
];

/// What an entry is given: a code, a root or a sheet; then a path or a point; then a child or a facet. What an
/// entry has no place for is empty or 0.
#[derive(Clone, Copy)]
pub struct Given<'a> {
    pub entry: Entry,
    pub one: &'a [u8],
    pub two: &'a [u8],
    pub which: u8,
}

/// The answer of any entry. A value stands among the numbers bit for bit. What an answer has for each axis is a
/// crossing's new vertex or a slope, that one bit for bit too.
#[derive(Clone, Copy, PartialEq, Debug)]
pub struct Answer {
    pub refusal: u8,
    pub offset: usize,
    pub numbers: [u64; 2],
    pub axes: [u64; 4],
}

impl Entry {
    pub fn name(self) -> &'static str {
        ENTRIES[self as usize].1
    }

    pub fn reads_a_sheet(self) -> bool {
        matches!(self, SheetCheck | LeafAt | ValueAt | SlopeAt | Compatible)
    }

    /// How many outputs are lent to it.
    pub fn outputs(self) -> usize {
        match self {
            CodeCheck | SheetCheck | ValueAt | SlopeAt | Compatible => 0,
            CodeToPath => 2,
            _ => 1,
        }
    }
}

impl Answer {
    fn new(refusal: u8, offset: usize, numbers: [u64; 2]) -> Answer {
        Answer { refusal, offset, numbers, axes: [0; 4] }
    }

    /// Bytes that the entry says it wrote to each output.
    pub fn written(&self, entry: Entry) -> [usize; 2] {
        let [first, second] = self.numbers.map(|n| n as usize);
        match entry.outputs() {
            0 => [0, 0],
            1 => [first, 0],
            _ => [first, second],
        }
    }
}

impl From<u8> for Answer {
    fn from(refusal: u8) -> Answer {
        Answer::new(refusal, 0, [0, 0])
    }
}

impl From<Written> for Answer {
    fn from(a: Written) -> Answer {
        Answer::new(a.refusal, 0, [a.length as u64, 0])
    }
}

impl From<PathWritten> for Answer {
    fn from(a: PathWritten) -> Answer {
        Answer::new(a.refusal, 0, [a.axes as u64, a.depth as u64])
    }
}

impl From<Crossed> for Answer {
    fn from(a: Crossed) -> Answer {
        let answer = Answer::new(a.refusal, 0, [a.length as u64, a.place as u64]);
        Answer { axes: a.vertex.map(u64::from), ..answer }
    }
}

impl From<SheetAnswer> for Answer {
    fn from(a: SheetAnswer) -> Answer {
        Answer::new(a.refusal, a.offset, [a.records as u64, 0])
    }
}

impl From<LeafAnswer> for Answer {
    fn from(a: LeafAnswer) -> Answer {
        Answer::new(a.refusal, a.offset, [a.length as u64, a.number as u64])
    }
}

impl From<ValueAnswer> for Answer {
    fn from(a: ValueAnswer) -> Answer {
        Answer::new(a.refusal, a.offset, [a.value.to_bits(), 0])
    }
}

impl From<SlopeAnswer> for Answer {
    fn from(a: SlopeAnswer) -> Answer {
        Answer { axes: a.bits(), ..Answer::new(a.refusal, a.offset, [0, 0]) }
    }
}

impl From<CompatibleAnswer> for Answer {
    fn from(a: CompatibleAnswer) -> Answer {
        Answer::new(a.refusal, a.offset, [a.compatible as u64, 0])
    }
}

/// A call as a reader can repeat it.
pub fn told(given: &Given, lent: [usize; 2]) -> String {
    let hex = |bytes: &[u8]| bytes.iter().map(|byte| format!("{byte:02x}")).collect::<String>();
    let (one, two) = (hex(given.one), hex(given.two));
    format!("{}: [{one}] [{two}] {}, lent {lent:?}", given.entry.name(), given.which)
}

/// A function that calls C entries of the names given, in the header's order of arguments.
macro_rules! c_entries {
    ($name:ident: $check:ident $to_code:ident $to_path:ident $vertices:ident $child:ident $parent:ident
     $cross:ident $sheet:ident $leaf:ident $value:ident $slope:ident $compatible:ident) => {
        #[inline]
        pub fn $name(given: &Given, out: &mut [u8], other: &mut [u8]) -> Answer {
            type In = *const u8;
            type Out = *mut u8;
            extern "C" {
                fn $check(c: In, n: usize) -> u8;
                fn $to_code(r: In, rn: usize, p: In, pn: usize, c: Out, n: usize) -> Written;
                fn $to_path(c: In, n: usize, r: Out, rn: usize, p: Out, pn: usize) -> PathWritten;
                fn $vertices(c: In, n: usize, p: Out, pn: usize) -> Written;
                fn $child(c: In, n: usize, which: u8, o: Out, on: usize) -> Written;
                fn $parent(c: In, n: usize, o: Out, on: usize) -> Written;
                fn $cross(c: In, n: usize, facet: u8, o: Out, on: usize) -> Crossed;
                fn $sheet(s: In, n: usize) -> SheetAnswer;
                fn $leaf(s: In, sn: usize, p: In, pn: usize, w: Out, wn: usize) -> LeafAnswer;
                fn $value(s: In, sn: usize, p: In, pn: usize) -> ValueAnswer;
                fn $slope(s: In, sn: usize, p: In, pn: usize) -> SlopeAnswer;
                fn $compatible(s: In, n: usize) -> CompatibleAnswer;
            }
            let (a, an) = (given.one.as_ptr(), given.one.len());
            let (b, bn) = (given.two.as_ptr(), given.two.len());
            let (o, on) = (out.as_mut_ptr(), out.len());
            unsafe {
                match given.entry {
                    Entry::CodeCheck => $check(a, an).into(),
                    Entry::PathToCode => $to_code(a, an, b, bn, o, on).into(),
                    Entry::CodeToPath => {
                        $to_path(a, an, o, on, other.as_mut_ptr(), other.len()).into()
                    }
                    Entry::Vertices => $vertices(a, an, o, on).into(),
                    Entry::Child => $child(a, an, given.which, o, on).into(),
                    Entry::Parent => $parent(a, an, o, on).into(),
                    Entry::Cross => $cross(a, an, given.which, o, on).into(),
                    Entry::SheetCheck => $sheet(a, an).into(),
                    Entry::LeafAt => $leaf(a, an, b, bn, o, on).into(),
                    Entry::ValueAt => $value(a, an, b, bn).into(),
                    Entry::SlopeAt => $slope(a, an, b, bn).into(),
                    Entry::Compatible => $compatible(a, an).into(),
                }
            }
        }
    };
}
#[allow(unused_imports)]
pub(crate) use c_entries;

c_entries!(library: rmk_code_check rmk_path_to_code rmk_code_to_path rmk_vertices rmk_child rmk_parent
           rmk_cross rmk_sheet_check rmk_leaf_at rmk_value_at rmk_slope_at rmk_compatible);
