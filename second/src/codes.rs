//! Document 01, "The code": the step rule along a path, and the bytes.

/// A level (by way of the depth), a signed permutation and an orthant list. An entry is an axis, negative
/// for minus.
#[derive(Clone, PartialEq, Debug)]
pub struct Code {
    pub depth: usize,
    pub entries: Vec<i8>,
    pub orthants: Vec<u8>,
}

impl Code {
    /// The roots start with all signs plus.
    pub fn root(axes: &[u8]) -> Code {
        let entries = axes.iter().map(|axis| *axis as i8).collect();
        Code { depth: 0, entries, orthants: Vec::new() }
    }

    /// Child 0 keeps the signed permutation. Child 1 turns the first k entries left by one place and
    /// negates the entry that moved to place k. A new level 0 appends an orthant.
    pub fn step(&mut self, which: u8) {
        let d = self.entries.len();
        let k = d - self.depth % d;
        if which == 1 {
            self.entries[..k].rotate_left(1);
            self.entries[k - 1] = -self.entries[k - 1];
        }
        self.depth += 1;
        if self.depth % d == 0 {
            self.orthants.push(orthant(&self.entries));
        }
    }

    pub fn at(root: &[u8], path: &[u8]) -> Code {
        let mut code = Code::root(root);
        path.iter().for_each(|which| code.step(*which));
        code
    }

    /// Dimension; depth; permutation bytes; orthant bytes.
    pub fn bytes(&self) -> Vec<u8> {
        let mut bytes = vec![self.entries.len() as u8, self.depth as u8];
        bytes.extend(self.entries.iter().map(|entry| entry_byte(*entry)));
        bytes.extend(&self.orthants);
        bytes
    }
}

/// High on the axes that have a minus, low on the others.
fn orthant(entries: &[i8]) -> u8 {
    entries.iter().filter(|e| **e < 0).map(|e| 1 << (e.unsigned_abs() - 1)).sum()
}

/// Axis 1..d, plus 128 for minus.
fn entry_byte(entry: i8) -> u8 {
    entry.unsigned_abs() + if entry < 0 { 128 } else { 0 }
}

/// The entry that a byte stands for, if its axis is one of 1..d.
pub fn entry_of(byte: u8, d: usize) -> Option<i8> {
    let axis = byte % 128;
    let known = 1 <= axis && axis as usize <= d;
    known.then_some(if byte < 128 { axis as i8 } else { -(axis as i8) })
}
