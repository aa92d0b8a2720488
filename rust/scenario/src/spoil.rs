//! Scenarios outside the domain: each spoiled call breaks one rule or more, so that refusals and their order are tried. The
//! Rust refuses nothing, so it is no oracle for these; the model is.

use crate::{Prices, Random, Scenario, Setting, Step, Symbol, bad_lists};

/// About one call in three spoiled, one opening in twenty, and cash-first mode turned on now and then.
pub fn spoiled(random: &mut Random, mut scenario: Scenario) -> Scenario {
    if random.one_in(20) {
        spoil_opening(random, &mut scenario);
    }
    for step in &mut scenario.steps {
        if random.one_in(3) {
            spoil(random, step);
        }
    }
    if random.one_in(2) {
        let at = random.below(scenario.steps.len() as u64 + 1) as usize;
        scenario.steps.insert(at, Step::Set(Setting::CashFirst(true)));
    }
    scenario
}

fn spoil_opening(random: &mut Random, scenario: &mut Scenario) {
    let opening = &mut scenario.opening;
    match random.below(6) {
        0 => opening.cash = negative(random),
        1 => opening.costs.commission_bps = random.pick(&BAD_RATES),
        2 => opening.costs.slippage_bps = random.pick(&[10_000.000000000002, -1.0, f64::NAN, f64::INFINITY]),
        3 => opening.costs.min_commission = negative(random),
        4 => opening.costs.max_commission = bad_ceiling(random, opening.costs.min_commission),
        _ => opening.equity_places = 0,
    }
}

const BAD_RATES: [f64; 5] = [-1.0, -f64::MIN_POSITIVE, f64::NAN, f64::INFINITY, f64::NEG_INFINITY];

/// Below the floor, and not 0.
pub fn bad_ceiling(random: &mut Random, floor: i64) -> i64 {
    match random.below(3) {
        0 if floor > 1 => floor - 1,
        1 if floor > 1 => 1 + random.below(floor as u64 - 1) as i64,
        _ => negative(random),
    }
}

fn negative(random: &mut Random) -> i64 {
    -1 - (random.u64() >> 1) as i64
}

fn spoil(random: &mut Random, step: &mut Step) {
    if random.one_in(2) && replaced(random, step) {
        return;
    }
    // Several faults at once try the order in which they are told.
    for _ in 0..1 + random.below(3) {
        match step {
            Step::Set(setting) => spoil_setting(random, setting),
            Step::Rebalance { targets, prices, places, .. } => match random.below(3) {
                0 => spoil_targets(random, targets),
                1 => spoil_prices(random, prices),
                _ => *places = random.below(64),
            },
            Step::Close { symbol, price, places, .. } => match random.below(3) {
                0 => *symbol = bad_symbol(random),
                1 => *price = bad_price(random),
                _ => *places = 0,
            },
            Step::RecordReturn { prices, equity_places, return_places } => match random.below(3) {
                0 => *equity_places = random.below(3),
                1 => *return_places = random.below(2),
                _ => spoil_prices(random, prices),
            },
            Step::Position(symbol) => *symbol = bad_symbol(random),
            Step::TotalEquity(prices)
            | Step::CurrentWeights(prices)
            | Step::UnpricedHolding(prices)
            | Step::Snapshot(prices) => spoil_prices(random, prices),
        }
    }
}

/// Lists with several bad entries in the place of a call's own; false where it takes none.
fn replaced(random: &mut Random, step: &mut Step) -> bool {
    match step {
        Step::Rebalance { targets, prices, .. } => (*targets, *prices) = bad_lists(random),
        Step::RecordReturn { prices, .. }
        | Step::TotalEquity(prices)
        | Step::CurrentWeights(prices)
        | Step::UnpricedHolding(prices)
        | Step::Snapshot(prices) => *prices = bad_lists(random).1,
        Step::Set(_) | Step::Close { .. } | Step::Position(_) => return false,
    }
    true
}

fn spoil_setting(random: &mut Random, setting: &mut Setting) {
    *setting = match random.below(5) {
        0 => Setting::QuantityStep(random.pick(&[0, -1, i64::MIN])),
        1 => Setting::MinOrderValue(negative(random)),
        2 => Setting::MaxOrderValue(negative(random)),
        3 => Setting::MaxRebalanceNotional(negative(random)),
        _ => Setting::NoTradeBandBps(random.pick(&BAD_RATES)),
    }
}

fn spoil_targets(random: &mut Random, targets: &mut Vec<(Symbol, f64)>) {
    match random.below(4) {
        0 => lengthen(random, targets, 64, 0.01),
        1 => entry(random, targets, 0.5).0 = bad_symbol(random),
        2 => {
            let twice = *entry(random, targets, 0.5);
            targets.push(twice);
        }
        _ => entry(random, targets, 0.5).1 = random.pick(&[f64::NAN, f64::INFINITY, f64::NEG_INFINITY]),
    }
}

fn spoil_prices(random: &mut Random, prices: &mut Prices) {
    match random.below(4) {
        0 => lengthen(random, prices, 128, 7),
        1 => entry(random, prices, 7).0 = bad_symbol(random),
        2 => {
            let twice = *entry(random, prices, 7);
            prices.push(twice);
        }
        _ => entry(random, prices, 7).1 = bad_price(random),
    }
}

/// An entry of the list, which gets one where it has none.
fn entry<'a, T: Copy>(random: &mut Random, list: &'a mut Vec<(Symbol, T)>, value: T) -> &'a mut (Symbol, T) {
    if list.is_empty() {
        list.push((Symbol(*b"A\0\0\0\0\0\0\0"), value));
    }
    let at = random.below(list.len() as u64) as usize;
    &mut list[at]
}

/// To the bound, or one past it, by good symbols of their own: with others held they may be too many together.
fn lengthen<T: Copy>(random: &mut Random, list: &mut Vec<(Symbol, T)>, bound: usize, value: T) {
    let length = bound + random.below(2) as usize;
    for k in list.len()..length {
        list.push((Symbol([b'z', b'0' + (k / 26) as u8, b'a' + (k % 26) as u8, 0, 0, 0, 0, 0]), value));
    }
}

pub fn bad_symbol(random: &mut Random) -> Symbol {
    Symbol(random.pick(&[
        *b"\0\0\0\0\0\0\0\0",
        *b"A\0B\0\0\0\0\0",
        *b"\0ABCDEFG",
        *b"A B\0\0\0\0\0",
        *b"ABCDEFG\x7f",
        [255; 8],
    ]))
}

pub fn bad_price(random: &mut Random) -> i64 {
    if random.one_in(2) { 0 } else { negative(random) }
}
