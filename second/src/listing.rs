//! Document 01, "The listing program": what it writes of a sheet.

use crate::sheets::Sheets;
use std::fmt::Write;

/// The most bytes that are listed, and the refusal of more.
pub const LIMIT: usize = 65_536;
const REFUSED_LARGE: u8 = 15;

pub fn listing(sheets: &Sheets, sheet: &[u8]) -> String {
    let codes = match sheet.len() > LIMIT {
        true => Err((REFUSED_LARGE, 0)),
        false => sheets.codes(sheet),
    };
    match codes {
        Ok(codes) => lines(&codes),
        Err((refusal, offset)) => format!("refused {refusal} at {offset}\n"),
    }
}

fn lines(codes: &[Vec<u8>]) -> String {
    let mut text = format!("dim {}\n", codes[0][0]);
    for (number, code) in codes.iter().enumerate() {
        write!(text, "{number} ").unwrap();
        code.iter().for_each(|byte| write!(text, "{byte:02x}").unwrap());
        text.push('\n');
    }
    text + &format!("leaves {}\n", codes.len())
}
