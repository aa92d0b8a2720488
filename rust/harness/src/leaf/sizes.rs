//! Notional, size, truncation and drift of an order, and the cash that a buy needs.

use super::Kind::{F64, I64};
use super::{Class, Inputs, Leaf, PLAIN, costs, padded};
use scenario::{Costs, Random};
use threshcoil_sys as port;

/// The steps that nanobook names: continuous, two brokers' minimums, whole shares.
const STEPS: [i64; 4] = [1, 100, 1_000, 1_000_000];

pub fn step(random: &mut Random) -> i64 {
    if random.one_in(6) { random.i64() } else { random.pick(&STEPS) }
}

pub fn price(random: &mut Random) -> i64 {
    if random.one_in(8) { random.i64() } else { random.i64() & i64::MAX }
}

const BY_STEP: &[Class] = &[
    ("zero", |_, r| r == 0),
    ("below zero", |_, r| (r as i64) < 0),
    ("above zero", |_, r| (r as i64) > 0),
    ("step 1", |i, r| r != 0 && i[2] == 1),
    ("step 100", |i, r| r != 0 && i[2] == 100),
    ("step 1,000", |i, r| r != 0 && i[2] == 1_000),
    ("step 1,000,000", |i, r| r != 0 && i[2] == 1_000_000),
    ("price below 1", |i, _| (i[1] as i64) < 1),
    ("step below 1", |i, _| (i[2] as i64) < 1),
    ("clamped", |_, r| (r as i64).unsigned_abs() >= i64::MAX as u64),
];

fn last(i: &Inputs) -> Costs {
    costs::costs([i[4], i[5], i[6]])
}

/// The cash that the request itself needs, in Rust's own arithmetic.
pub fn need(requested: i64, price: i64, c: Costs) -> i64 {
    if requested <= 0 || price <= 0 {
        return 0;
    }
    let notional = (i128::from(requested) * i128::from(price) / 1_000_000).min(i64::MAX as i128) as i64;
    notional.saturating_add(costs::charged(c, notional))
}

/// "the largest step multiple, not above the request, whose need fits cash": halved for over unsigned counts of steps, so
/// that no midpoint overflows.
pub fn largest(requested: i64, cash: i64, step: i64, price: i64, c: Costs) -> i64 {
    if cash < 1 || step < 1 || requested < 1 || price < 1 || !costs::are_good(c) {
        return 0;
    }
    let (mut fits, mut over) = (0, (requested / step) as u64 + 1);
    while over - fits > 1 {
        let count = fits + (over - fits) / 2;
        if need(count as i64 * step, price, c) <= cash { fits = count } else { over = count }
    }
    fits as i64 * step
}

/// A request and the cash, step, price and costs that it is to be cut down by; most do not fit.
fn affordable(random: &mut Random) -> Inputs {
    let [mut c, mut s, m] = costs::draw(random);
    if random.below(8) > 0 {
        (c, s) = (f64::from_bits(c).abs().min(1e6).to_bits(), 5f64.to_bits());
    }
    let price = if random.one_in(16) { random.i64() } else { 1 + (random.i64() & i64::MAX) / 2 };
    let requested = if random.one_in(64) { i64::MAX } else { random.i64() & i64::MAX };
    let floor = if random.one_in(16) { m } else { (m as i64 & i64::MAX) as u64 >> random.below(50) };
    let whole = need(requested, price, costs::costs([c, s, floor]));
    let cash = match random.below(6) {
        0 => random.i64(),
        1 => whole.saturating_sub(random.below(3) as i64),
        2 => floor as i64 + random.below(1_000) as i64 % 1_000,
        _ => (whole as f64 * (random.below(1 << 20) as f64 / (1 << 20) as f64)) as i64,
    };
    padded([requested as u64, cash as u64, step(random) as u64, price as u64, c, s, floor])
}

pub const LEAVES: &[Leaf] = &[
    Leaf {
        name: "tc_notional_of",
        number: 61,
        takes: &[I64, I64],
        gives: I64,
        port: |i| port::tc_notional_of(i[0] as i64, i[1] as i64) as u64,
        nanobook: Some(|n, i| (n.notional_of)(i[0] as i64, i[1] as i64) as u64),
        classes: &[
            ("zero", |_, r| r == 0),
            ("above zero", |_, r| (r as i64) > 0),
            ("top", |_, r| r as i64 == i64::MAX),
            ("of -2^63", |i, _| i[0] as i64 == i64::MIN),
        ],
        ..PLAIN
    },
    Leaf {
        name: "tc_size_qty",
        number: 62,
        takes: &[I64, I64, I64],
        gives: I64,
        draw: Some(|random| padded([random.i64() as u64, price(random) as u64, step(random) as u64])),
        port: |i| port::tc_size_qty(i[0] as i64, i[1] as i64, i[2] as i64) as u64,
        nanobook: Some(|n, i| (n.size_qty)(i[0] as i64, i[1] as i64, i[2] as i64) as u64),
        classes: BY_STEP,
        ..PLAIN
    },
    Leaf {
        name: "tc_truncate_qty_to_max_value",
        number: 63,
        takes: &[I64, I64, I64, I64],
        gives: I64,
        draw: Some(|random| {
            padded([random.i64() as u64, price(random) as u64, step(random) as u64, price(random) as u64])
        }),
        port: |i| port::tc_truncate_qty_to_max_value(i[0] as i64, i[1] as i64, i[2] as i64, i[3] as i64) as u64,
        nanobook: Some(|n, i| (n.truncate_qty_to_max_value)(i[0] as i64, i[1] as i64, i[2] as i64, i[3] as i64) as u64),
        classes: BY_STEP,
        ..PLAIN
    },
    Leaf {
        name: "tc_drift_bps_of",
        number: 64,
        takes: &[I64, I64],
        gives: F64,
        port: |i| port::tc_drift_bps_of(i[0] as i64, i[1] as i64).to_bits(),
        nanobook: Some(|n, i| (n.drift_bps_of)(i[0] as i64, i[1] as i64).to_bits()),
        classes: &[
            ("zero", |_, r| f64::from_bits(r) == 0.0),
            ("equity 0", |i, _| i[1] == 0),
            ("equity below 0", |i, _| (i[1] as i64) < 0),
            ("over the equity", |_, r| f64::from_bits(r) > 10_000.0),
        ],
        ..PLAIN
    },
    Leaf {
        name: "tc_buy_cash_required",
        number: 65,
        takes: &[I64, I64, F64, F64, I64],
        gives: I64,
        draw: Some(|random| {
            let [c, s, m] = costs::draw(random);
            padded([random.i64() as u64, price(random) as u64, c, s, m])
        }),
        port: |i| {
            let [c, s] = [i[2], i[3]].map(f64::from_bits);
            port::tc_buy_cash_required(i[0] as i64, i[1] as i64, c, s, i[4] as i64) as u64
        },
        nanobook: Some(|n, i| (n.buy_cash_required)(i[0] as i64, i[1] as i64, costs::costs([i[2], i[3], i[4]])) as u64),
        classes: &[
            ("nothing bought", |i, _| (i[0] as i64) < 1),
            ("price below 1", |i, _| (i[1] as i64) < 1),
            ("above zero", |_, r| r as i64 > 0),
            ("below zero", |_, r| (r as i64) < 0),
            ("rate NaN", |i, _| f64::from_bits(i[2]).is_nan()),
            ("top", |_, r| r as i64 == i64::MAX),
        ],
        ..PLAIN
    },
    Leaf {
        name: "tc_largest_affordable_buy_qty",
        number: 66,
        takes: &[I64, I64, I64, I64, F64, F64, I64],
        gives: I64,
        draw: Some(affordable),
        port: |i| {
            let [requested, cash, step, price, floor] = [i[0], i[1], i[2], i[3], i[6]].map(|n| n as i64);
            let [c, s] = [i[4], i[5]].map(f64::from_bits);
            port::tc_largest_affordable_buy_qty(requested, cash, step, price, c, s, floor) as u64
        },
        rust: Some(|i| largest(i[0] as i64, i[1] as i64, i[2] as i64, i[3] as i64, last(i)) as u64),
        nanobook: Some(|n, i| {
            let [requested, cash, step, price] = [i[0], i[1], i[2], i[3]].map(|n| n as i64);
            (n.largest_affordable_buy_qty)(requested, cash, step, price, last(i)) as u64
        }),
        left_out: &[
            ("costs that no account has", |i| !costs::are_good(last(i))),
            ("the request fits, and nanobook gives it off the step", |i| {
                let [requested, cash, step, price] = [i[0], i[1], i[2], i[3]].map(|n| n as i64);
                let takes = requested > 0 && cash > 0 && step > 0 && price > 0;
                takes && requested % step != 0 && need(requested, price, last(i)) <= cash
            }),
            ("nanobook does not end", |i| {
                let cash = i[1] as i64;
                i[0] as i64 == i64::MAX && i[2] == 1 && cash > 0 && need(i64::MAX, i[3] as i64, last(i)) > cash
            }),
        ],
        classes: &[
            ("nothing", |i, r| r == 0 && i[1] as i64 > 0),
            ("cash below 1", |i, _| (i[1] as i64) < 1),
            ("price below 1", |i, _| (i[3] as i64) < 1 && i[1] as i64 > 0),
            ("cut down, not to nothing", |i, r| r != 0 && r < i[0]),
            ("step 1", |i, r| r != 0 && i[2] == 1),
            ("step 100", |i, r| r != 0 && i[2] == 100),
            ("step 1,000", |i, r| r != 0 && i[2] == 1_000),
            ("step 1,000,000", |i, r| r != 0 && i[2] == 1_000_000),
            ("the floor decides", |i, r| r != 0 && need(r as i64, i[3] as i64, last(i)) - (i[6] as i64) < i[6] as i64),
        ],
        ..PLAIN
    },
];
