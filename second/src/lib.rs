//! The second program: document 01 by literal bisection, over paths and whole-number points.
//!
//! It shares nothing with the proved library but the document. A code is never read by arithmetic: its
//! cell is found by walking down from the roots with the document's own step rule, and everything else
//! is then said of the root and the path. Slow and descriptive; it serves comparison alone.

pub mod answers; // the answers as the C side lays them out
pub mod bisection; // "The cube and the bisection": points, roots, cells
pub mod codes; // "The code": the step rule and the bytes
pub mod compatible; // "Sheets": the compatibility test, by the vertices of facets and by pairs of leaves
pub mod crossing; // "Crossing", by geometry and by listing all cells
pub mod entries; // the expected outcome of each entry on a code
pub mod finder; // the root and the path of a code, by search
pub mod forests; // good sheets, as leaves of random forests
pub mod hulls; // points between others, by elimination
pub mod inputs; // good, damaged and random inputs
pub mod lent; // lent outputs and the comparison of outcomes
pub mod linear; // good sheets with the samples of one linear function
pub mod listing; // "The listing program": the text of a sheet
pub mod mending; // compatible sheets, as leaves of forests that are mended
pub mod points; // points in, on and around cells
pub mod queries; // "Sheets": the leaf, the grey value and the slope at a point
pub mod random; // a repeatable source of numbers
pub mod sheets; // "Sheets": records, and the forest that they are the leaves of
pub mod sizes; // sizes and refusal numbers
pub mod slopes; // the slope of the grey field in a cell, by elimination
pub mod weighing; // "Sheets": a point's weights in a cell; fractions as binary64
pub mod worked; // the cells worked by hand
