//! A small table to look at: document 01's numbers through the port, beside Rust's: nanobook's own, or Rust's own arithmetic where
//! nanobook has no such function. Under a ceiling, which it lacks, they come of its answers without one (leaf/ceilings.rs).

use crate::differ::{call, same, shown};
use crate::leaf::{self, Inputs};

const fn signed(n: i64) -> u64 {
    n as u64
}

const BPS_0: u64 = 0;
const BPS_10: u64 = 0x4024_0000_0000_0000;
const BPS_1000: u64 = 0x408f_4000_0000_0000;
const AAPL: u64 = u64::from_be_bytes(*b"AAPL\0\0\0\0");

/// Document 01's cases a to d, h, i, j and k where one call shows them, b and d again under document 02's ceiling, and the casts and
/// roundings at which a plain program slips.
const ROWS: &[(&str, &[u64])] = &[
    ("tc_value", &[1, 999_999]),
    ("tc_value", &[1, 1_000_000]),
    ("tc_value", &[signed(-1), 999_999]),
    ("tc_compute_cost", &[BPS_10, BPS_0, 100, 1_000_000]),
    ("tc_compute_cost", &[BPS_10, BPS_0, 100, 10_000]),
    ("tc_compute_cost", &[BPS_1000, BPS_0, 0, 5]),
    ("tc_compute_cost", &[BPS_1000, BPS_0, 0, 4]),
    ("tc_largest_affordable_buy_qty", &[100_000_000, 100_000, 1_000_000, 1_000, BPS_10, BPS_0, 100]),
    ("tc_compute_cost_with_ceiling", &[BPS_10, BPS_0, 100, 100, 1_000_000]),
    ("tc_compute_cost_with_ceiling", &[BPS_10, BPS_0, 100, 100, 10_000]),
    ("tc_largest_affordable_buy_qty_with_ceiling", &[100_000_000, 100_050, 1_000_000, 1_000, BPS_10, BPS_0, 0, 50]),
    ("tc_size_qty", &[1_999, 1_000, 1_000_000]),
    ("tc_size_qty", &[signed(-1_999), 1_000, 1_000_000]),
    ("tc_size_qty", &[1_999, 1_000, 1_000]),
    ("tc_apply_fill average", &[AAPL, 10_000_000, 100, 0, 1_000, 10_000_000, 201]),
    ("tc_apply_fill total", &[AAPL, 20_000_000, 150, 0, 3_010, signed(-5_000_000), 160]),
    ("tc_apply_fill realized", &[AAPL, 15_000_000, 150, 50, 2_260, signed(-20_000_000), 140]),
    ("tc_apply_fill average", &[AAPL, signed(-10_000_000), 100, 0, signed(-1_000), 4_000_000, 90]),
    ("tc_apply_fill quantity", &[AAPL, signed(i64::MIN), 1, 0, signed(-9_223_372_036_855), i64::MAX as u64, 1]),
    ("tc_drift_bps_of", &[5_000, 20_000]),
    ("tc_value", &[signed(i64::MIN), signed(i64::MIN)]),
    ("tc_notional_of", &[signed(i64::MIN), 1]),
    ("tc_mul_high", &[u64::MAX, u64::MAX]),
    ("tc_div_low", &[7, 0, 3]),
    ("tc_shares_add", &[signed(i64::MAX), 1]),
    ("tc_shares_neg", &[signed(i64::MIN)]),
    ("tc_i64_to_f64", &[(1 << 53) + 1]),
    ("tc_u64_to_f64", &[u64::MAX]),
    ("tc_round", &[0x3fdf_ffff_ffff_ffff]),
    ("tc_round", &[0x4004_0000_0000_0000]),
    ("tc_round_to_i64", &[0xbfe0_0000_0000_0000]),
    ("tc_to_i64", &[0x7ff8_0000_0000_0000]),
    ("tc_to_i64", &[0x43e0_0000_0000_0000]),
];

pub fn run() -> bool {
    let nanobook = oracle::leaves();
    println!("{:<92} {:>24} {:>24}", "call", "Threshcoil", "Rust");
    let mut agreed = true;
    for (name, words) in ROWS {
        let leaf = leaf::all().find(|leaf| leaf.name == *name).expect("a leaf of the table");
        let mut inputs = Inputs::default();
        inputs[..words.len()].copy_from_slice(words);
        let ours = (leaf.port)(&inputs);
        let theirs = leaf.expected(nanobook.as_ref(), &inputs);
        agreed &= theirs.is_none_or(|theirs| same(leaf.gives, ours, theirs));
        let theirs = theirs.map_or("not at hand".to_owned(), |theirs| shown(leaf.gives, theirs));
        println!("{:<92} {:>24} {theirs:>24}", call(leaf, &inputs), shown(leaf.gives, ours));
    }
    agreed
}
