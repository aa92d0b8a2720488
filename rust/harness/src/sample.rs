//! The stored sample of the Rust's answers that the proved program `replay` replays, so that a machine without nanobook,
//! and the gate itself, still hold the port to it.
//!
//! A row is nine 64-bit words, the lowest byte first: a leaf's number, seven inputs (0 where it takes fewer), the answer.

use crate::leaf::{self, Inputs, Kind, Leaf};
use scenario::Random;

const SEED: u64 = 1;
const ROWS: usize = 40;
const WORDS: usize = 9;
const TAKEN: usize = WORDS - 2;

/// Inputs by hand, at which a plain program slips: the double just below 0.5 and its negative, halves up to 2^52, NaNs.
const POINTS: [(&str, u64); 16] = [
    ("tc_round", 0x3fdf_ffff_ffff_ffff),
    ("tc_round", 0xbfdf_ffff_ffff_ffff),
    ("tc_round_to_i64", 0x3fdf_ffff_ffff_ffff),
    ("tc_round_to_i64", 0xbfdf_ffff_ffff_ffff),
    ("tc_round", 0x4320_0000_0000_0001),
    ("tc_round", 0xc320_0000_0000_0003),
    ("tc_round", 0x432f_ffff_ffff_ffff),
    ("tc_round_to_i64", 0x4320_0000_0000_0001),
    ("tc_round_to_i64", 0x4330_0000_0000_0001),
    ("tc_round_to_i64", 0xc330_0000_0000_0001),
    ("tc_to_i64", 0x7ff8_0000_0000_0000),
    ("tc_to_i64", 0xfff8_0000_0000_0000),
    ("tc_to_i64", 0x7ff0_0000_0000_0001),
    ("tc_round_to_i64", 0x7ff8_0000_0000_0000),
    ("tc_round_to_i64", 0xfff8_0000_0000_0000),
    ("tc_round_to_i64", 0xfff0_0000_0000_0001),
];

/// The Rust's answer. All NaNs are stored as one.
fn answer(leaf: &Leaf, nanobook: &oracle::Leaves, inputs: &Inputs) -> Option<u64> {
    let bits = leaf.expected(Some(nanobook), inputs)?;
    let is_float = matches!(leaf.gives, Kind::F64 | Kind::Figure);
    Some(if is_float && f64::from_bits(bits).is_nan() { f64::NAN.to_bits() } else { bits })
}

fn rows(nanobook: &oracle::Leaves) -> Vec<u8> {
    let mut bytes = Vec::new();
    let mut row = |leaf: &Leaf, given: &Inputs| {
        // Where the Rust is no oracle there is no row.
        let Some(answer) = answer(leaf, nanobook, given) else { return false };
        let words = [&[leaf.number], &given[..TAKEN], &[answer]].concat();
        bytes.extend(words.iter().flat_map(|word| word.to_le_bytes()));
        true
    };
    for leaf in leaf::sampled() {
        let mut random = Random::new(SEED + leaf.number);
        let mut left = ROWS;
        while left > 0 {
            left -= usize::from(row(leaf, &leaf.inputs(&mut random)));
        }
    }
    for (name, word) in POINTS {
        let leaf = leaf::sampled().find(|leaf| leaf.name == name).expect("a leaf of that name");
        row(leaf, &[word, 0, 0, 0, 0, 0, 0, 0]);
    }
    bytes
}

/// Nothing is written where nanobook is not at hand: the sample is its answers and nobody else's.
pub fn write(path: &str) -> bool {
    let Some(nanobook) = oracle::leaves() else {
        println!("sample: nanobook's source is not at hand, so nothing is written");
        return false;
    };
    let bytes = rows(&nanobook);
    if let Err(error) = std::fs::write(path, &bytes) {
        println!("sample: {path}: {error}");
        return false;
    }
    println!("sample: {} rows to {path}", bytes.len() / (8 * WORDS));
    true
}

/// Whether the stored sample is what the Rust answers now. Skipped, and said so, where nanobook is not at hand.
pub fn check(path: &str) -> bool {
    let Some(nanobook) = oracle::leaves() else {
        println!("sample: SKIPPED, since nanobook's source is not at hand");
        return true;
    };
    let same = std::fs::read(path).is_ok_and(|stored| stored == rows(&nanobook));
    println!("sample: {path} is {} what the Rust answers", if same { "just" } else { "NOT" });
    same
}
