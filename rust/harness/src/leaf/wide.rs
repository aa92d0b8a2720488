//! Products and quotients in two words, and the values made of them.

use super::Kind::{I64, U64};
use super::{CLAMPED, Class, Inputs, Leaf, PLAIN};
use threshcoil_sys as port;

const WORDS: &[Class] = &[("zero", |_, r| r == 0), ("not zero", |_, r| r != 0), ("top bit", |_, r| r >> 63 == 1)];

const QUOTIENT: &[Class] = &[
    ("divisor 0", |i, _| i[2] == 0),
    ("one word", |i, _| i[0] == 0 && i[2] != 0),
    ("divisor below 2^32", |i, _| i[0] != 0 && i[2] >> 32 == 0),
    ("divisor from 2^32", |i, _| i[0] != 0 && i[2] >> 32 != 0),
    ("quotient of two words", |i, _| i[2] != 0 && i[0] >= i[2]),
];

fn wide(i: &Inputs) -> u128 {
    u128::from(i[0]) << 64 | u128::from(i[1])
}

fn quotient(i: &Inputs) -> u128 {
    wide(i).checked_div(u128::from(i[2])).unwrap_or(0)
}

fn snapped(i: &Inputs) -> u128 {
    quotient(i) * u128::from(i[2])
}

fn product(i: &Inputs) -> u128 {
    u128::from(i[0]) * u128::from(i[1])
}

fn clamped(n: i128) -> u64 {
    n.clamp(i64::MIN as i128, i64::MAX as i128) as i64 as u64
}

pub fn value(quantity: i64, price: i64) -> i64 {
    clamped(i128::from(quantity) * i128::from(price) / 1_000_000) as i64
}

/// The product of the magnitudes, by its words and digits: the ways that a quotient by SCALE goes.
const VALUE: &[Class] = &[
    ("zero", |_, r| r == 0),
    ("below zero", |_, r| (r as i64) < 0),
    ("above zero", |_, r| (r as i64) > 0),
    ("bottom", |_, r| r as i64 == i64::MIN),
    ("top", |_, r| r as i64 == i64::MAX),
    ("product of one digit", |i, _| magnitudes(i) < 1 << 32),
    ("product of two digits", |i, _| (1 << 32..1 << 64).contains(&magnitudes(i))),
    ("product of three digits", |i, _| (1 << 64..1 << 96).contains(&magnitudes(i))),
    ("product of four digits", |i, _| magnitudes(i) >= 1 << 96),
    ("quotient of two words", |i, _| magnitudes(i) / 1_000_000 >= 1 << 64),
];

fn magnitudes(i: &Inputs) -> u128 {
    u128::from((i[0] as i64).unsigned_abs()) * u128::from((i[1] as i64).unsigned_abs())
}

fn price_at(i: &Inputs) -> u64 {
    match i[1] as i64 {
        0 => 0,
        quantity => clamped(i128::from(i[0] as i64) * 1_000_000 / i128::from(quantity)),
    }
}

pub const LEAVES: &[Leaf] = &[
    Leaf {
        name: "tc_mul_high",
        number: 11,
        takes: &[U64, U64],
        gives: U64,
        port: |i| port::tc_mul_high(i[0], i[1]),
        rust: Some(|i| (product(i) >> 64) as u64),
        classes: WORDS,
        ..PLAIN
    },
    Leaf {
        name: "tc_mul_low",
        number: 12,
        takes: &[U64, U64],
        gives: U64,
        port: |i| port::tc_mul_low(i[0], i[1]),
        rust: Some(|i| product(i) as u64),
        classes: WORDS,
        ..PLAIN
    },
    Leaf {
        name: "tc_div_high",
        number: 13,
        takes: &[U64, U64, U64],
        gives: U64,
        port: |i| port::tc_div_high(i[0], i[1], i[2]),
        rust: Some(|i| (quotient(i) >> 64) as u64),
        classes: QUOTIENT,
        ..PLAIN
    },
    Leaf {
        name: "tc_div_low",
        number: 14,
        takes: &[U64, U64, U64],
        gives: U64,
        port: |i| port::tc_div_low(i[0], i[1], i[2]),
        rust: Some(|i| quotient(i) as u64),
        classes: QUOTIENT,
        ..PLAIN
    },
    Leaf {
        name: "tc_snap_high",
        number: 15,
        takes: &[U64, U64, U64],
        gives: U64,
        port: |i| port::tc_snap_high(i[0], i[1], i[2]),
        rust: Some(|i| (snapped(i) >> 64) as u64),
        classes: QUOTIENT,
        ..PLAIN
    },
    Leaf {
        name: "tc_snap_low",
        number: 16,
        takes: &[U64, U64, U64],
        gives: U64,
        port: |i| port::tc_snap_low(i[0], i[1], i[2]),
        rust: Some(|i| snapped(i) as u64),
        classes: QUOTIENT,
        ..PLAIN
    },
    Leaf {
        name: "tc_value",
        number: 17,
        takes: &[I64, I64],
        gives: I64,
        port: |i| port::tc_value(i[0] as i64, i[1] as i64) as u64,
        rust: Some(|i| value(i[0] as i64, i[1] as i64) as u64),
        nanobook: Some(|n, i| (n.notional_cents)(i[0] as i64, i[1] as i64) as u64),
        classes: VALUE,
        ..PLAIN
    },
    Leaf {
        name: "tc_price_at",
        number: 18,
        takes: &[I64, I64],
        gives: I64,
        port: |i| port::tc_price_at(i[0] as i64, i[1] as i64) as u64,
        rust: Some(price_at),
        nanobook: Some(|n, i| (n.avg_price)(i[0] as i64, i[1] as i64) as u64),
        classes: CLAMPED,
        ..PLAIN
    },
];
