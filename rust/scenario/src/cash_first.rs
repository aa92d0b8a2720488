//! Scenarios in cash-first mode from the opening on: little cash, holdings each worth about its commission, orders that change no
//! cash, caps that cut. The Rust lacks the mode, so it is no oracle for these; the model is.

use crate::aimed::weight;
use crate::generate::{scenario, symbol};
use crate::{Context, Costs, Kind, Opening, Prices, Random, Scenario, Setting, Step, Symbol, Targets};

/// Whole shares of a symbol, negative for a short, and its price.
struct Lot {
    symbol: Symbol,
    shares: i64,
    price: i64,
}

impl Lot {
    fn worth(&self) -> i64 {
        self.shares * self.price
    }
}

/// One in four is any scenario inside the domain.
pub fn cash_first(random: &mut Random) -> Scenario {
    let mut scenario = if random.one_in(4) { scenario(random) } else { short_of_cash(random) };
    scenario.steps.insert(0, Step::Set(Setting::CashFirst(true)));
    scenario
}

/// The first rebalance buys the lots and leaves what is spare; the later ones close, trim and add to them at other prices.
fn short_of_cash(random: &mut Random) -> Scenario {
    let costs = costs(random);
    let sum = if costs.min_commission > 0 { costs.min_commission } else { 2 + random.below(300) as i64 };
    let mut lots = lots(random, sum);
    let spare = random.pick(&[0, 0, 1, sum / 2, sum, 5 * sum]);
    let cash = (spare + lots.iter().map(|lot| taken(costs, lot)).sum::<i64>()).max(1);
    let bought = lots.iter().map(|lot| (lot.symbol, weight_of(lot.worth(), cash))).collect();
    let mut steps = vec![
        Step::Set(Setting::QuantityStep(random.pick(&[1, 1, 1_000, 1_000_000]))),
        Step::Set(Setting::Recording(!random.one_in(8))),
        rebalance(0, bought, &lots),
    ];
    for period in 1..2 + random.below(4) {
        if random.one_in(3) {
            steps.push(Step::Set(limit(random, sum, lots.len())));
        }
        lots.iter_mut().for_each(|lot| lot.price = moved(random, costs, sum, lot));
        let equity = (spare + lots.iter().map(Lot::worth).sum::<i64>()).max(1);
        steps.push(rebalance(period, targets(random, &lots, sum, equity), &lots));
        if random.one_in(2) {
            steps.push(Step::Snapshot(listed(&lots)));
        }
    }
    Scenario { opening: Opening { cash, costs, equity_places: 1 }, steps }
}

/// A floor alone, with a rate, with slippage of any size; a rate that takes about all a sale brings, or more; none; a rate alone, and now
/// and then slippage that takes a sale's price to 0.
fn costs(random: &mut Random) -> Costs {
    let floor = 2 + random.below(500) as i64;
    let few = random.below(400) as f64 / 8.0;
    let (commission_bps, slippage_bps, min_commission) = match random.below(6) {
        0 => (0.0, 0.0, floor),
        1 => (few, few / 4.0, floor),
        2 => (0.0, random.below(10_001) as f64, floor),
        3 => (random.pick(&[9_900.0, 9_999.0, 10_000.0, 10_050.0, 12_500.0]), few, random.below(2) as i64 * floor),
        4 => (0.0, 0.0, 0),
        _ => (few, if random.one_in(4) { 10_000.0 } else { few }, 0),
    };
    Costs { commission_bps, slippage_bps, min_commission, max_commission: 0 }
}

/// Up to 64 symbols in any order.
fn lots(random: &mut Random, sum: i64) -> Vec<Lot> {
    let count = random.pick(&[2, 3, 3, 4, 5, 8, 12, 24, 64]);
    let mut symbols: Vec<Symbol> = (0..count).map(|_| symbol(random)).collect();
    symbols.sort();
    symbols.dedup();
    random.shuffle(&mut symbols);
    let lot = |symbol| {
        let side = if random.one_in(12) { -1 } else { 1 };
        Lot { symbol, shares: side * random.pick(&[1, 1, 1, 2, 3, 10]), price: 1 + random.below(3 * sum as u64) as i64 }
    };
    symbols.into_iter().map(lot).collect()
}

/// The cash that a lot takes.
fn taken(costs: Costs, lot: &Lot) -> i64 {
    let factor = 1.0 + lot.shares.signum() as f64 * costs.slippage_bps / 10_000.0;
    let worth = lot.shares * (lot.price as f64 * factor).round() as i64;
    worth + ((worth.abs() as f64 * costs.commission_bps / 10_000.0).round() as i64).max(costs.min_commission)
}

/// Half of the prices are such that the whole lot is sold for the sum, or about it.
fn moved(random: &mut Random, costs: Costs, sum: i64, lot: &Lot) -> i64 {
    match random.below(4) {
        0 | 1 => {
            let each = sum / lot.shares.abs() + random.below(3) as i64 - 1;
            let kept = 1.0 - costs.slippage_bps / 10_000.0;
            (if kept > 0.0 { (each as f64 / kept).round() as i64 } else { each }).max(1)
        }
        2 => 1 + random.below(4 * sum as u64) as i64,
        _ => lot.price,
    }
}

/// Half of the lots are closed; a gap of a cent becomes, but at few prices, an order worth 0.
fn targets(random: &mut Random, lots: &[Lot], sum: i64, equity: i64) -> Targets {
    let mut targets = Targets::new();
    for lot in lots {
        let value = match random.below(8) {
            0..=3 => continue,
            4 => lot.worth() - 1,
            5 => lot.worth() + 1,
            6 => lot.worth() + random.below(2 * sum as u64) as i64,
            _ => lot.worth() * random.below(100) as i64 / 100,
        };
        targets.push((lot.symbol, weight_of(value, equity)));
    }
    random.shuffle(&mut targets);
    targets
}

fn weight_of(value: i64, equity: i64) -> f64 {
    if value < 0 { -weight(-value, equity) } else { weight(value, equity) }
}

fn limit(random: &mut Random, sum: i64, lots: usize) -> Setting {
    let about = 1 + random.below(3 * sum as u64) as i64;
    match random.below(5) {
        0 | 1 => Setting::MaxOrderValue(about),
        2 => Setting::MaxRebalanceNotional(about * (1 + random.below(lots as u64) as i64)),
        3 => Setting::MaxTrades(Some(random.below(lots as u64 + 1))),
        _ => Setting::MinOrderValue(about / 8),
    }
}

fn rebalance(period: u64, targets: Targets, lots: &[Lot]) -> Step {
    Step::Rebalance { targets, prices: listed(lots), context: Context { period, kind: Kind::Rebalance }, places: 64 }
}

fn listed(lots: &[Lot]) -> Prices {
    lots.iter().map(|lot| (lot.symbol, lot.price)).collect()
}
