//! Share counts as raw micro-shares. Sums, negation and absolute value saturate, and so does a whole count here.

use super::Kind::{F64, I64, U64};
use super::{CLAMPED, Class, Leaf, PLAIN};
use threshcoil_sys as port;

const SIGNED: &[Class] = &[
    ("zero", |_, r| r == 0),
    ("below zero", |_, r| (r as i64) < 0),
    ("above zero", |_, r| (r as i64) > 0),
    ("top", |_, r| r as i64 == i64::MAX),
];

const MAGNITUDE: &[Class] =
    &[("zero", |_, r| r == 0), ("of -2^63", |i, _| i[0] as i64 == i64::MIN), ("below zero", |i, _| (i[0] as i64) < 0)];

pub const LEAVES: &[Leaf] = &[
    Leaf {
        name: "tc_shares_add",
        number: 1,
        takes: &[I64, I64],
        gives: I64,
        port: |i| port::tc_shares_add(i[0] as i64, i[1] as i64) as u64,
        rust: Some(|i| (i[0] as i64).saturating_add(i[1] as i64) as u64),
        nanobook: Some(|n, i| (n.shares_add)(i[0] as i64, i[1] as i64) as u64),
        classes: CLAMPED,
        ..PLAIN
    },
    Leaf {
        name: "tc_shares_sub",
        number: 2,
        takes: &[I64, I64],
        gives: I64,
        port: |i| port::tc_shares_sub(i[0] as i64, i[1] as i64) as u64,
        rust: Some(|i| (i[0] as i64).saturating_sub(i[1] as i64) as u64),
        nanobook: Some(|n, i| (n.shares_sub)(i[0] as i64, i[1] as i64) as u64),
        classes: CLAMPED,
        ..PLAIN
    },
    Leaf {
        name: "tc_shares_neg",
        number: 3,
        takes: &[I64],
        gives: I64,
        port: |i| port::tc_shares_neg(i[0] as i64) as u64,
        rust: Some(|i| (i[0] as i64).saturating_neg() as u64),
        nanobook: Some(|n, i| (n.shares_neg)(i[0] as i64) as u64),
        classes: SIGNED,
        ..PLAIN
    },
    Leaf {
        name: "tc_shares_abs",
        number: 4,
        takes: &[I64],
        gives: I64,
        port: |i| port::tc_shares_abs(i[0] as i64) as u64,
        rust: Some(|i| (i[0] as i64).saturating_abs() as u64),
        nanobook: Some(|n, i| (n.shares_abs)(i[0] as i64) as u64),
        classes: MAGNITUDE,
        ..PLAIN
    },
    Leaf {
        name: "tc_shares_unsigned_abs",
        number: 5,
        takes: &[I64],
        gives: U64,
        port: |i| port::tc_shares_unsigned_abs(i[0] as i64),
        rust: Some(|i| (i[0] as i64).unsigned_abs()),
        nanobook: Some(|n, i| (n.shares_unsigned_abs)(i[0] as i64)),
        classes: MAGNITUDE,
        ..PLAIN
    },
    Leaf {
        name: "tc_shares_from_whole",
        number: 6,
        takes: &[I64],
        gives: I64,
        port: |i| port::tc_shares_from_whole(i[0] as i64) as u64,
        rust: Some(|i| (i[0] as i64).saturating_mul(1_000_000) as u64),
        nanobook: Some(|n, i| (n.shares_from_whole)(i[0] as i64) as u64),
        left_out: &[("nanobook wraps", |i| (i[0] as i64).checked_mul(1_000_000).is_none())],
        classes: CLAMPED,
        ..PLAIN
    },
    Leaf {
        name: "tc_shares_whole",
        number: 7,
        takes: &[I64],
        gives: I64,
        port: |i| port::tc_shares_whole(i[0] as i64) as u64,
        rust: Some(|i| (i[0] as i64 / 1_000_000) as u64),
        nanobook: Some(|n, i| (n.shares_whole)(i[0] as i64) as u64),
        classes: &[
            ("zero", |_, r| r == 0),
            ("below zero", |_, r| (r as i64) < 0),
            ("above zero", |_, r| (r as i64) > 0),
            ("of -2^63", |i, _| i[0] as i64 == i64::MIN),
        ],
        ..PLAIN
    },
    Leaf {
        name: "tc_shares_to_f64",
        number: 8,
        takes: &[I64],
        gives: F64,
        port: |i| port::tc_shares_to_f64(i[0] as i64).to_bits(),
        rust: Some(|i| (i[0] as i64 as f64 / 1_000_000.0).to_bits()),
        nanobook: Some(|n, i| (n.shares_to_f64)(i[0] as i64).to_bits()),
        classes: &[
            ("zero", |_, r| r == 0),
            ("a whole count", |_, r| f64::from_bits(r).fract() == 0.0),
            ("with a fraction", |_, r| f64::from_bits(r).fract() != 0.0),
            ("from 2^53 micro-shares", |i, _| (i[0] as i64).unsigned_abs() >> 53 != 0),
        ],
        ..PLAIN
    },
];
