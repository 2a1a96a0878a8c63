//! Document 01, the sizes and the refusal numbers.

/// How often the cube is halved on each axis.
pub const HALVINGS: usize = 12;
pub const CUBE_SIDE: u32 = 1 << HALVINGS;
pub const MOST_AXES: usize = 4;
pub const DIMENSIONS: [usize; 3] = [2, 3, 4];

pub const DONE: u8 = 0;
pub const REFUSED_DIMENSION: u8 = 1;
pub const REFUSED_DEPTH: u8 = 2;
pub const REFUSED_LENGTH: u8 = 3;
pub const REFUSED_PERMUTATION: u8 = 4;
pub const REFUSED_ORTHANT: u8 = 5;
pub const REFUSED_SIGN: u8 = 6;
pub const REFUSED_STEP: u8 = 7;
pub const REFUSED_FACE: u8 = 8;
pub const REFUSED_ROOT: u8 = 9;
pub const REFUSED_DEEPEST: u8 = 10;
pub const REFUSED_SHORT: u8 = 11;
pub const REFUSED_POINT: u8 = 12;
pub const REFUSED_RECORD: u8 = 13;
pub const REFUSED_LEAF: u8 = 14;

pub fn is_dimension(d: usize) -> bool {
    DIMENSIONS.contains(&d)
}

pub fn greatest_depth(d: usize) -> usize {
    HALVINGS * d
}

pub fn code_length(d: usize, depth: usize) -> usize {
    2 + d + depth / d
}

/// Every dimension with every depth.
pub fn every_depth() -> Vec<(usize, usize)> {
    let depths = |d| (0..=greatest_depth(d)).map(move |depth| (d, depth));
    DIMENSIONS.into_iter().flat_map(depths).collect()
}
