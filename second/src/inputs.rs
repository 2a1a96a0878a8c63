//! Inputs for the comparison: good ones of every dimension and depth, damaged ones and noise.

use crate::bisection::roots;
use crate::codes::Code;
use crate::random::Random;
use crate::sizes::*;

/// What the command line asks for: `--seed N` and `--count N`.
pub struct Options {
    pub seed: u64,
    pub count: usize,
}

impl Options {
    pub fn read(default_count: usize) -> Options {
        let mut options = Options { seed: 1, count: default_count };
        let mut words = std::env::args().skip(1);
        while let Some(word) = words.next() {
            let number = words.next().and_then(|n| n.parse::<u64>().ok());
            match (word.as_str(), number) {
                ("--seed", Some(n)) => options.seed = n,
                ("--count", Some(n)) => options.count = n as usize,
                _ => {
                    eprintln!("options: --seed N, --count N");
                    std::process::exit(2);
                }
            }
        }
        options
    }
}

pub fn good_root(random: &mut Random, d: usize) -> Vec<u8> {
    let all = roots(d);
    all[random.below(all.len())].clone()
}

/// Steps in even shares or mostly alike, so that cells at the cube's faces and corners come up too.
pub fn good_path(random: &mut Random, depth: usize) -> Vec<u8> {
    let ones = random.one_of(&[8, 8, 8, 1, 15]);
    (0..depth).map(|_| (random.below(16) < ones) as u8).collect()
}

pub fn good_code(random: &mut Random, d: usize, depth: usize) -> Vec<u8> {
    Code::at(&good_root(random, d), &good_path(random, depth)).bytes()
}

/// A good code with one or more bytes changed, added, taken out or moved.
pub fn damaged_code(random: &mut Random, d: usize, depth: usize) -> Vec<u8> {
    let mut code = good_code(random, d, depth);
    let at = random.below(code.len());
    match random.below(8) {
        0 => code[at] = random.byte(),
        1 => code[at] ^= 1 << random.below(8),
        2 => (0..2 + random.below(4)).for_each(|_| change_byte(random, &mut code)),
        3 => (0..1 + random.below(4)).for_each(|_| code.push(random.byte() % 16)),
        4 => code.truncate(at),
        5 => code.insert(at, random.byte() % 8),
        6 => drop(code.remove(at)),
        _ => {
            let other = random.below(code.len());
            code.swap(at, other);
        }
    }
    code
}

fn change_byte(random: &mut Random, code: &mut [u8]) {
    let at = random.below(code.len());
    code[at] = random.byte();
}

/// The right form: a permutation with any signs, and orthants that are nearly always below 2^d.
pub fn shaped_code(random: &mut Random, d: usize, depth: usize) -> Vec<u8> {
    let mut code = vec![d as u8, depth as u8];
    code.extend(good_root(random, d).iter().map(|axis| axis + random.one_of(&[0, 128])));
    code.extend((0..depth / d).map(|_| random.byte() % (1 << d)));
    if random.once_in(8) {
        let at = 2 + random.below(code.len() - 2);
        code[at] = random.byte() % 32;
    }
    code
}

/// Codes of a dimension and depth: good ones, damaged ones, and one of the right form alone.
pub fn of_each_kind(random: &mut Random, d: usize, depth: usize) -> [Vec<u8>; 5] {
    [
        good_code(random, d, depth),
        good_code(random, d, depth),
        damaged_code(random, d, depth),
        damaged_code(random, d, depth),
        shaped_code(random, d, depth),
    ]
}

/// Random bytes, the first ones often good.
pub fn noise(random: &mut Random, length: usize) -> Vec<u8> {
    let mut bytes = random.bytes(length);
    let d = random.one_of(&DIMENSIONS);
    if length > 0 && !random.once_in(4) {
        bytes[0] = d as u8;
    }
    if length > 1 && !random.once_in(4) {
        bytes[1] = random.below(greatest_depth(d) + 1) as u8;
    }
    let small = if random.once_in(2) { length } else { 0 };
    bytes.iter_mut().take(small).skip(2).for_each(|byte| *byte = *byte % 6 + (*byte & 128));
    bytes
}

/// What a length loses that is kept in one byte or in two.
pub const LOST: [usize; 2] = [256, 65_536];

/// A byte string of a length, with a front: then zeros, the front again and again, or noise.
pub fn longer(random: &mut Random, front: &[u8], length: usize) -> [Vec<u8>; 3] {
    let again: &[u8] = if front.is_empty() { &[1] } else { front };
    let repeated: Vec<u8> = again.iter().copied().cycle().take(length).collect();
    let (mut zeros, mut noise) = (vec![0; length], random.bytes(length));
    let kept = front.len().min(length);
    zeros[..kept].copy_from_slice(&front[..kept]);
    noise[..kept].copy_from_slice(&front[..kept]);
    [zeros, repeated, noise]
}

/// Codes whose lengths are those of a good one, or nearly, where only one or two bytes of a length are
/// kept. A wrong head is refused for itself, also where such a length looks too short for a head.
pub fn narrowing_codes(random: &mut Random, d: usize, depth: usize) -> Vec<Vec<u8>> {
    let code = good_code(random, d, depth);
    let too_deep = [&[d as u8, greatest_depth(d) as u8 + 1], &code[2..]].concat();
    let no_dimension = [&[MOST_AXES as u8 + 1], &code[1..]].concat();
    let lows = [0, 1, 2, code.len() - 1, code.len(), code.len() + 1];
    let mut codes = Vec::new();
    for length in LOST.iter().flat_map(|lost| lows.map(|low| lost + low)) {
        for front in [&code, &too_deep, &no_dimension] {
            codes.extend(longer(random, front, length));
        }
    }
    codes
}

/// Half good, half not; `n` sees to it that every kind meets every dimension and depth.
pub fn any_code(random: &mut Random, n: usize, depths: &[(usize, usize)]) -> Vec<u8> {
    let (d, depth) = depths[n / 8 % depths.len()];
    match n % 8 {
        0..=3 => good_code(random, d, depth),
        4 | 5 => damaged_code(random, d, depth),
        6 => shaped_code(random, d, depth),
        _ => {
            let length = random.below(41);
            noise(random, length)
        }
    }
}

/// A root, mostly good; its length may be any from 0 to 6.
pub fn any_root(random: &mut Random, d: usize) -> Vec<u8> {
    let mut root = if is_dimension(d) { good_root(random, d) } else { random.bytes(d) };
    if d > 0 && random.once_in(4) {
        let at = random.below(d);
        root[at] = random.one_of(&[0, 1, 2, 3, 4, 5, 127, 128, 129, 130, 131, 132, 133, 255]);
    }
    root
}

/// A path, mostly good.
pub fn any_path(random: &mut Random, depth: usize) -> Vec<u8> {
    let mut path = good_path(random, depth);
    if depth > 0 && random.once_in(4) {
        let at = random.below(depth);
        path[at] = random.one_of(&[2, 3, 128, 129, 254, 255]);
    }
    path
}
