//! Commission and slippage.

use super::Kind::{Bool, F64, I64};
use super::{Class, Inputs, Leaf, PLAIN, padded};
use scenario::{Costs, Random};
use threshcoil_sys as port;

const RATES: &[Class] = &[
    ("rate 0", |i, _| f64::from_bits(i[0]) == 0.0),
    ("rate below 0", |i, _| f64::from_bits(i[0]) < 0.0),
    ("rate infinite", |i, _| f64::from_bits(i[0]).is_infinite()),
    ("rate NaN", |i, _| f64::from_bits(i[0]).is_nan()),
    ("the floor", |i, r| i[2] != 0 && r == i[2]),
    ("above the floor", |i, r| r as i64 > i[2] as i64),
    ("a floor below 0", |i, _| (i[2] as i64) < 0),
    ("notional of -2^63", |i, _| i[3] as i64 == i64::MIN),
    ("top", |_, r| r as i64 == i64::MAX),
];

const PRICES: &[Class] = &[
    ("a buy", |i, _| i[3] as i64 > 0),
    ("a sale", |i, _| (i[3] as i64) < 0),
    ("slippage 0", |i, _| f64::from_bits(i[1]) == 0.0),
    ("slippage NaN", |i, _| f64::from_bits(i[1]).is_nan()),
    ("up", |i, r| r as i64 > i[4] as i64),
    ("down", |i, r| (r as i64) < i[4] as i64),
    ("a sale at 0", |i, r| (i[3] as i64) < 0 && i[4] as i64 > 0 && r == 0),
    ("changed with no slippage", |i, r| f64::from_bits(i[1]) == 0.0 && r != i[4]),
];

/// The costs of an account, most of them good: rates as they are quoted, or any double, and a floor.
pub fn draw(random: &mut Random) -> [u64; 3] {
    let mut rate = |most: f64| match random.below(3) {
        0 => random.pick(&[0.0, -0.0, 0.5, 1.0, 2.5, 10.0, 33.3, 1_000.0, most]),
        1 => random.below(1 << 40) as f64 / (1u64 << 40) as f64 * 100.0,
        _ => random.f64(),
    };
    let rates = [rate(1e6).to_bits(), rate(10_000.0).to_bits()];
    let floor = match random.below(4) {
        0 => 0,
        1 => random.below(10_000) as i64,
        _ => random.i64(),
    };
    [rates[0], rates[1], floor as u64]
}

pub fn costs(words: [u64; 3]) -> Costs {
    Costs {
        commission_bps: f64::from_bits(words[0]),
        slippage_bps: f64::from_bits(words[1]),
        min_commission: words[2] as i64,
        max_commission: 0,
    }
}

pub fn are_good(c: Costs) -> bool {
    let rate = c.commission_bps.is_finite() && c.commission_bps >= 0.0;
    let ceiling = c.max_commission == 0 || c.max_commission >= c.min_commission;
    rate && (0.0..=10_000.0).contains(&c.slippage_bps) && c.min_commission >= 0 && ceiling
}

/// What a fill is charged, in Rust's own arithmetic.
pub fn charged(c: Costs, notional: i64) -> i64 {
    let rate = (notional.unsigned_abs() as f64 * c.commission_bps / 10_000.0).round() as i64;
    lesser(rate.max(c.min_commission), c.max_commission)
}

/// "the lesser of today's commission and the ceiling", "0 meaning none"
pub fn lesser(today: i64, ceiling: i64) -> i64 {
    if ceiling == 0 { today } else { today.min(ceiling) }
}

fn first(i: &Inputs) -> Costs {
    costs([i[0], i[1], i[2]])
}

/// What a fill pays or is paid, in Rust's own arithmetic.
pub fn paid(c: Costs, quantity: i64, price: i64) -> i64 {
    let sign = if quantity > 0 { 1.0 } else { -1.0 };
    (price as f64 * (1.0 + sign * c.slippage_bps / 10_000.0)).round() as i64
}

fn effective_price(i: &Inputs) -> i64 {
    paid(first(i), i[3] as i64, i[4] as i64)
}

pub const LEAVES: &[Leaf] = &[
    Leaf {
        name: "tc_good_costs",
        number: 41,
        takes: &[F64, F64, I64],
        gives: Bool,
        draw: Some(|random| padded(draw(random))),
        port: |i| u64::from(port::tc_good_costs(f64::from_bits(i[0]), f64::from_bits(i[1]), i[2] as i64)),
        rust: Some(|i| u64::from(are_good(first(i)))),
        classes: &[("good", |_, r| r == 1), ("bad", |_, r| r == 0)],
        ..PLAIN
    },
    Leaf {
        name: "tc_compute_cost",
        number: 42,
        takes: &[F64, F64, I64, I64],
        gives: I64,
        draw: Some(|random| {
            let [c, s, m] = draw(random);
            padded([c, s, m, random.i64() as u64])
        }),
        port: |i| port::tc_compute_cost(f64::from_bits(i[0]), f64::from_bits(i[1]), i[2] as i64, i[3] as i64) as u64,
        nanobook: Some(|n, i| (n.compute_cost)(first(i), i[3] as i64) as u64),
        classes: RATES,
        ..PLAIN
    },
    Leaf {
        name: "tc_effective_price",
        number: 43,
        takes: &[F64, F64, I64, I64, I64],
        gives: I64,
        draw: Some(|random| {
            let [c, s, m] = draw(random);
            padded([c, s, m, random.i64() as u64, random.i64() as u64])
        }),
        port: |i| {
            let [c, s] = [i[0], i[1]].map(f64::from_bits);
            port::tc_effective_price(c, s, i[2] as i64, i[3] as i64, i[4] as i64) as u64
        },
        rust: Some(|i| effective_price(i) as u64),
        classes: PRICES,
        ..PLAIN
    },
];
