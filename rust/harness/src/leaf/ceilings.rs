//! Commission under a ceiling, which the Rust lacks: its own commission is the oracle, and "the lesser" of it and the ceiling is taken
//! here; its largest affordable buy is asked for twice, without the ceiling and for a flat fee of it.

use super::Kind::{Bool, F64, I64};
use super::costs::{are_good, charged, lesser};
use super::sizes::{largest, need, price, step};
use super::{Class, Inputs, Leaf, PLAIN, costs, padded};
use scenario::{Costs, Random};
use threshcoil_sys as port;

/// None, about the floor, about a commission or at a part of it, a little above the floor, or any.
pub fn ceiling(random: &mut Random, floor: i64, commission: i64) -> i64 {
    let near = random.below(3) as i64 - 1;
    match random.below(8) {
        0 => 0,
        1 => floor,
        2 => floor.saturating_add(near),
        3 | 4 => commission.saturating_add(near),
        5 => (commission as f64 * (random.below(1 << 20) as f64 / (1 << 20) as f64)) as i64,
        6 => floor.saturating_add(random.below(10_000) as i64),
        _ => random.i64(),
    }
}

fn costs(words: [u64; 4]) -> Costs {
    let [c, s, floor, ceiling] = words;
    Costs { max_commission: ceiling as i64, ..costs::costs([c, s, floor]) }
}

/// The costs without their ceiling.
pub fn free(c: Costs) -> Costs {
    Costs { max_commission: 0, ..c }
}

/// The costs that charge the ceiling, whatever the notional.
pub fn flat_fee(c: Costs) -> Costs {
    Costs { commission_bps: 0.0, min_commission: c.max_commission, ..free(c) }
}

/// Costs without a ceiling, the lesser of which good costs charge. So a need fits cash where it does under one of these, and the
/// largest affordable buy is the greater of theirs.
fn of_the_rust(c: Costs) -> impl Iterator<Item = Costs> {
    [free(c)].into_iter().chain((c.max_commission != 0).then(|| flat_fee(c)))
}

/// What the ceiling may do to a commission, by the costs and the notional that are read from the inputs.
macro_rules! lessened {
    ($read:expr) => {
        &[
            ("no ceiling", |i, _| $read(i).0.max_commission == 0),
            ("the ceiling", |i, _| reached($read(i)) > 0),
            ("just at the ceiling", |i, _| $read(i).0.max_commission != 0 && reached($read(i)) == 0),
            ("below the ceiling", |i, _| reached($read(i)) < 0),
            ("a ceiling at the floor", |i, _| {
                $read(i).0.max_commission == $read(i).0.min_commission && reached($read(i)) > 0
            }),
            ("a ceiling below the floor", |i, _| (1..$read(i).0.min_commission).contains(&$read(i).0.max_commission)),
            ("a ceiling below 0", |i, _| $read(i).0.max_commission < 0),
            ("top", |_, r| r as i64 == i64::MAX),
        ]
    };
}

/// On which side of the ceiling today's commission lies; 0 also where there is none.
fn reached((c, notional): (Costs, i64)) -> i32 {
    match c.max_commission {
        0 => 0,
        ceiling => charged(free(c), notional).cmp(&ceiling) as i32,
    }
}

fn of_cost(i: &Inputs) -> (Costs, i64) {
    (costs([i[0], i[1], i[2], i[3]]), i[4] as i64)
}

fn of_need(i: &Inputs) -> (Costs, i64) {
    (costs([i[2], i[3], i[4], i[5]]), notional((i[0] as i64).max(0), (i[1] as i64).max(0)))
}

fn last(i: &Inputs) -> Costs {
    costs([i[4], i[5], i[6], i[7]])
}

/// Of a buy or a sale, in Rust's own arithmetic.
pub fn notional(quantity: i64, price: i64) -> i64 {
    (i128::from(quantity) * i128::from(price) / 1_000_000).abs().min(i64::MAX as i128) as i64
}

const COST: &[Class] = lessened!(of_cost);
const NEED: &[Class] = lessened!(of_need);

/// A request that most often does not fit, its cash about what it needs or about where the ceiling is reached.
fn affordable(random: &mut Random) -> Inputs {
    let [c, s, floor] = costs::draw(random);
    let (bps, floor) = (f64::from_bits(c).abs().min(1e6), (floor as i64 & i64::MAX) >> random.below(50));
    let (c, s) = if random.one_in(16) { (c, s) } else { (bps.to_bits(), 5f64.to_bits()) };
    let price = if random.one_in(16) { random.i64() } else { 1 + ((random.i64() & i64::MAX) >> random.below(40)) };
    let requested = if random.one_in(64) { i64::MAX } else { random.i64() & i64::MAX };
    let today = charged(costs([c, s, floor as u64, 0]), notional(requested, price));
    let drawn = ceiling(random, floor, today);
    let ceiling = if random.one_in(16) || drawn == 0 { drawn } else { drawn.max(floor) };
    let whole = need(requested, price, costs([c, s, floor as u64, ceiling as u64]));
    let crossing = ((ceiling as f64 * 10_000.0 / bps) as i64).saturating_add(ceiling);
    let cash = match random.below(8) {
        0 => random.i64(),
        1 => whole.saturating_sub(random.below(3) as i64),
        2 => floor.saturating_add(random.below(1_000) as i64),
        3 | 4 => crossing.saturating_add(random.below(1_000) as i64 - 500),
        _ => (whole as f64 * (random.below(1 << 20) as f64 / (1 << 20) as f64)) as i64,
    };
    [requested as u64, cash as u64, step(random) as u64, price as u64, c, s, floor as u64, ceiling as u64]
}

/// A request, the cash, the step and the price.
fn asked(i: &Inputs) -> [i64; 4] {
    [i[0], i[1], i[2], i[3]].map(|n| n as i64)
}

fn takes(i: &Inputs) -> bool {
    asked(i).iter().all(|n| *n > 0) && are_good(last(i))
}

fn ours(i: &Inputs) -> i64 {
    let [requested, cash, step, price] = asked(i);
    let Costs { commission_bps, slippage_bps, min_commission, max_commission } = last(i);
    port::tc_largest_affordable_buy_qty_with_ceiling(
        requested,
        cash,
        step,
        price,
        commission_bps,
        slippage_bps,
        min_commission,
        max_commission,
    )
}

/// Cut down, not to nothing.
fn is_part(i: &Inputs, filled: i64) -> bool {
    takes(i) && filled > 0 && filled < i[0] as i64
}

/// On which side of the ceiling the commission of so many shares lies.
fn side(i: &Inputs, quantity: i64) -> i32 {
    reached((last(i), notional(quantity, i[3] as i64)))
}

const PARTS: &[Class] = &[
    ("nothing", |i, r| r == 0 && i[1] as i64 > 0),
    ("bad costs", |i, _| !are_good(last(i))),
    ("a part without a ceiling", |i, r| last(i).max_commission == 0 && is_part(i, r as i64)),
    ("a part below the ceiling", |i, r| is_part(i, r as i64) && side(i, r as i64) < 0),
    ("a part whose next step would reach it", |i, r| {
        let more = (r as i64).saturating_add(i[2] as i64);
        is_part(i, r as i64) && side(i, r as i64) < 0 && side(i, more) >= 0
    }),
    ("a part at the ceiling", |i, r| is_part(i, r as i64) && side(i, r as i64) > 0),
    ("a part for a flat fee", |i, r| {
        is_part(i, r as i64) && side(i, r as i64) > 0 && last(i).max_commission == last(i).min_commission
    }),
    ("whole by the ceiling alone", |i, r| {
        takes(i) && r == i[0] && need(r as i64, i[3] as i64, free(last(i))) > i[1] as i64
    }),
    ("step 1", |i, r| r != 0 && i[2] == 1),
    ("step 1,000,000", |i, r| r != 0 && i[2] == 1_000_000),
];

pub const LEAVES: &[Leaf] = &[
    Leaf {
        name: "tc_good_costs_with_ceiling",
        takes: &[F64, F64, I64, I64],
        gives: Bool,
        draw: Some(|random| {
            let [c, s, floor] = costs::draw(random);
            padded([c, s, floor, ceiling(random, floor as i64, 1_000) as u64])
        }),
        port: |i| {
            let [c, s] = [i[0], i[1]].map(f64::from_bits);
            u64::from(port::tc_good_costs_with_ceiling(c, s, i[2] as i64, i[3] as i64))
        },
        rust: Some(|i| u64::from(are_good(of_cost(i).0))),
        classes: &[
            ("good", |_, r| r == 1),
            ("bad", |_, r| r == 0),
            ("good without a ceiling", |i, r| r == 1 && i[3] == 0),
            ("good, and at the floor", |i, r| r == 1 && i[3] == i[2] && i[2] != 0),
            ("good, and above the floor", |i, r| r == 1 && i[3] as i64 > i[2] as i64),
            ("bad for the ceiling alone", |i, r| r == 0 && are_good(free(of_cost(i).0))),
            ("bad for a ceiling below 0 alone", |i, r| r == 0 && (i[3] as i64) < 0 && are_good(free(of_cost(i).0))),
        ],
        ..PLAIN
    },
    Leaf {
        name: "tc_compute_cost_with_ceiling",
        takes: &[F64, F64, I64, I64, I64],
        gives: I64,
        draw: Some(|random| {
            let ([c, s, floor], notional) = (costs::draw(random), random.i64());
            let today = charged(costs::costs([c, s, floor]), notional);
            padded([c, s, floor, ceiling(random, floor as i64, today) as u64, notional as u64])
        }),
        port: |i| {
            let [c, s] = [i[0], i[1]].map(f64::from_bits);
            port::tc_compute_cost_with_ceiling(c, s, i[2] as i64, i[3] as i64, i[4] as i64) as u64
        },
        rust: Some(|i| charged(of_cost(i).0, i[4] as i64) as u64),
        nanobook: Some(|n, i| {
            let (c, notional) = of_cost(i);
            lesser((n.compute_cost)(free(c), notional), c.max_commission) as u64
        }),
        classes: COST,
        ..PLAIN
    },
    Leaf {
        name: "tc_buy_cash_required_with_ceiling",
        takes: &[I64, I64, F64, F64, I64, I64],
        gives: I64,
        draw: Some(|random| {
            let ([c, s, floor], quantity, price) = (costs::draw(random), random.i64(), price(random));
            let today = charged(costs::costs([c, s, floor]), notional(quantity, price));
            padded([quantity as u64, price as u64, c, s, floor, ceiling(random, floor as i64, today) as u64])
        }),
        port: |i| {
            let [c, s] = [i[2], i[3]].map(f64::from_bits);
            port::tc_buy_cash_required_with_ceiling(i[0] as i64, i[1] as i64, c, s, i[4] as i64, i[5] as i64) as u64
        },
        rust: Some(|i| need(i[0] as i64, i[1] as i64, of_need(i).0) as u64),
        nanobook: Some(|n, i| {
            let ((c, _), quantity, price) = (of_need(i), i[0] as i64, i[1] as i64);
            if quantity < 1 || price < 1 {
                return (n.buy_cash_required)(quantity, price, free(c)) as u64;
            }
            let notional = (n.notional_of)(quantity, price);
            notional.saturating_add(lesser((n.compute_cost)(free(c), notional), c.max_commission)) as u64
        }),
        classes: NEED,
        ..PLAIN
    },
    Leaf {
        name: "tc_largest_affordable_buy_qty_with_ceiling",
        takes: &[I64, I64, I64, I64, F64, F64, I64, I64],
        gives: I64,
        draw: Some(affordable),
        port: |i| ours(i) as u64,
        rust: Some(|i| {
            let [requested, cash, step, price] = asked(i);
            largest(requested, cash, step, price, last(i)) as u64
        }),
        nanobook: Some(|n, i| {
            let [requested, cash, step, price] = asked(i);
            let count = |c| (n.largest_affordable_buy_qty)(requested, cash, step, price, c);
            of_the_rust(last(i)).map(count).max().unwrap_or(0) as u64
        }),
        left_out: &[
            ("costs that no account has", |i| !are_good(last(i))),
            ("the request fits, and nanobook gives it off the step", |i| {
                let [requested, cash, step, price] = asked(i);
                takes(i) && requested % step != 0 && need(requested, price, last(i)) <= cash
            }),
            ("nanobook does not end", |i| {
                let [requested, cash, step, price] = asked(i);
                let searches = || of_the_rust(last(i)).any(|c| need(i64::MAX, price, c) > cash);
                requested == i64::MAX && step == 1 && cash > 0 && searches()
            }),
        ],
        classes: PARTS,
        ..PLAIN
    },
];
