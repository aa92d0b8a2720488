//! Casts and rounding.

use super::Kind::{Bool, F64, I64, U64};
use super::{Class, Inputs, Leaf, PLAIN};
use threshcoil_sys as port;

const FROM_DOUBLE: &[Class] = &[
    ("NaN", |i, _| x(i).is_nan()),
    ("infinite", |i, _| x(i).is_infinite()),
    ("subnormal", |i, _| x(i).is_subnormal()),
    ("minus zero", |i, _| i[0] == 1 << 63),
    ("a half", |i, _| x(i).fract().abs() == 0.5),
    ("just below a half", |i, _| f64::from_bits(i[0].wrapping_add(1)).abs() == 0.5),
    ("a whole number", |i, _| x(i).fract() == 0.0),
    ("with a fraction", |i, _| x(i).fract() != 0.0 && x(i).is_finite()),
    ("from 2^52 to 2^63", |i, _| (2f64.powi(52)..2f64.powi(63)).contains(&x(i).abs())),
    ("at 2^63 and over", |i, _| x(i).abs() >= 2f64.powi(63)),
];

/// What a whole number may meet on its way to a double, by its magnitude.
macro_rules! to_double {
    ($magnitude:expr) => {
        &[
            ("exact", |i, r| f64::from_bits(r).abs() as u128 == u128::from($magnitude(i))),
            ("rounded up", |i, r| f64::from_bits(r).abs() as u128 > u128::from($magnitude(i))),
            ("rounded down", |i, r| u128::from($magnitude(i)) > f64::from_bits(r).abs() as u128),
            ("a tie", |i, _| is_tie($magnitude(i))),
            ("up to a power of two", |i, r| {
                f64::from_bits(r).abs() as u128 > u128::from($magnitude(i)) && r.trailing_zeros() >= 52
            }),
        ]
    };
}

fn x(i: &Inputs) -> f64 {
    f64::from_bits(i[0])
}

/// Halfway between two doubles.
fn is_tie(n: u64) -> bool {
    let dropped = 11u32.saturating_sub(n.leading_zeros());
    dropped > 0 && n << (64 - dropped) == 1 << 63
}

pub const LEAVES: &[Leaf] = &[
    Leaf {
        name: "tc_is_finite",
        number: 31,
        takes: &[F64],
        gives: Bool,
        port: |i| u64::from(port::tc_is_finite(x(i))),
        rust: Some(|i| u64::from(x(i).is_finite())),
        classes: FROM_DOUBLE,
        ..PLAIN
    },
    Leaf {
        name: "tc_to_i64",
        number: 32,
        takes: &[F64],
        gives: I64,
        port: |i| port::tc_to_i64(x(i)) as u64,
        rust: Some(|i| x(i) as i64 as u64),
        classes: FROM_DOUBLE,
        ..PLAIN
    },
    Leaf {
        name: "tc_i64_to_f64",
        number: 33,
        takes: &[I64],
        gives: F64,
        port: |i| port::tc_i64_to_f64(i[0] as i64).to_bits(),
        rust: Some(|i| (i[0] as i64 as f64).to_bits()),
        classes: to_double!(|i: &Inputs| (i[0] as i64).unsigned_abs()),
        ..PLAIN
    },
    Leaf {
        name: "tc_u64_to_f64",
        number: 34,
        takes: &[U64],
        gives: F64,
        port: |i| port::tc_u64_to_f64(i[0]).to_bits(),
        rust: Some(|i| (i[0] as f64).to_bits()),
        classes: to_double!(|i: &Inputs| i[0]),
        ..PLAIN
    },
    Leaf {
        name: "tc_round",
        number: 35,
        takes: &[F64],
        gives: F64,
        port: |i| port::tc_round(x(i)).to_bits(),
        rust: Some(|i| x(i).round().to_bits()),
        classes: FROM_DOUBLE,
        ..PLAIN
    },
    Leaf {
        name: "tc_round_to_i64",
        number: 36,
        takes: &[F64],
        gives: I64,
        port: |i| port::tc_round_to_i64(x(i)) as u64,
        rust: Some(|i| x(i).round() as i64 as u64),
        classes: FROM_DOUBLE,
        ..PLAIN
    },
];
